-- What the extension does by a clock that a test writer publishes, GOOD or worse. `check` starts both.
SELECT current_setting('sundial.page') AS page \gset
\setenv PAGE :page
CREATE EXTENSION sundial;
CREATE TABLE t (a int PRIMARY KEY, at bigint);
CREATE FUNCTION stamped(id xid8) RETURNS TABLE (commits bigint, passed boolean) LANGUAGE sql AS
    'SELECT count(*), bool_and(stamp < earliest) FROM sundial.commits, sundial_now() WHERE xid = id';

-- Readings, stamps and waits
SELECT status, latest - earliest BETWEEN 200000 AND 2000000 AS wide, eps - (latest - earliest) / 2 IN (0, 1) AS half FROM sundial_now();
SELECT sundial_stamp() >= latest AS late, sundial_stamp() < sundial_stamp() AS rises FROM sundial_now();
SELECT sundial_stamp() AS stamp \gset
SELECT sundial_wait(:stamp + 20000000);
SELECT earliest > :stamp + 20000000 AS passed FROM sundial_now();
SELECT sundial_wait(-1);

-- A commit without the setting has no stamp
INSERT INTO t VALUES (1) RETURNING pg_current_xact_id() AS id \gset
SELECT * FROM stamped(:id::text::xid8);

-- With it each has one, which has passed
SET sundial.commit_wait = on;
INSERT INTO t VALUES (2) RETURNING pg_current_xact_id() AS id \gset
SELECT * FROM stamped(:id::text::xid8);

-- Those who write nothing have none; subtransactions have none of their own; what is rolled back has none
SELECT count(*) AS before FROM sundial.commits \gset
BEGIN; SELECT count(*) FROM t; COMMIT;
BEGIN; INSERT INTO t VALUES (3); ROLLBACK;
SELECT count(*) - :before AS more FROM sundial.commits;
BEGIN; SAVEPOINT a; INSERT INTO t VALUES (4); RELEASE a; SAVEPOINT b; INSERT INTO t VALUES (5); ROLLBACK TO b; COMMIT;
SELECT count(*) - :before AS more FROM sundial.commits;

-- The stamp is taken after a deferred trigger, which may take locks
CREATE FUNCTION last_thing() RETURNS trigger LANGUAGE plpgsql AS
    'BEGIN UPDATE t SET at = sundial_stamp() WHERE a = NEW.a; RETURN NULL; END';
CREATE CONSTRAINT TRIGGER last_thing AFTER INSERT ON t DEFERRABLE INITIALLY DEFERRED FOR EACH ROW EXECUTE FUNCTION last_thing();
INSERT INTO t VALUES (6) RETURNING pg_current_xact_id() AS id \gset
SELECT stamp > at AS after FROM sundial.commits, t WHERE xid = :id::text::xid8 AND a = 6;
DROP TRIGGER last_thing ON t;

-- Each commit of a procedure has one, and one that parallel workers helped with has one
CREATE PROCEDURE twice() LANGUAGE plpgsql AS 'BEGIN INSERT INTO t VALUES (7); COMMIT; INSERT INTO t VALUES (8); END';
SELECT count(*) AS before FROM sundial.commits \gset
CALL twice();
SELECT count(*) - :before AS more FROM sundial.commits;
SET force_parallel_mode = on;
SELECT count(*) AS before FROM sundial.commits \gset
CREATE TABLE copied AS SELECT a FROM t;
RESET force_parallel_mode;
SELECT count(*) - :before AS more FROM sundial.commits;

-- Two-phase commit: the stamp is taken and passes before the transaction is prepared
BEGIN; INSERT INTO t VALUES (9) RETURNING pg_current_xact_id() AS id \gset
PREPARE TRANSACTION 'nine';
SELECT * FROM stamped(:id::text::xid8);
COMMIT PREPARED 'nine';
SELECT * FROM stamped(:id::text::xid8);
BEGIN; INSERT INTO t VALUES (10) RETURNING pg_current_xact_id() AS id \gset
PREPARE TRANSACTION 'ten';
ROLLBACK PREPARED 'ten';
SELECT * FROM stamped(:id::text::xid8);

-- A clock that is not GOOD fails the transaction
\! $PG_ABS_SRCDIR/writer $PAGE WIDE
SELECT status, eps > 1000000 AS wide FROM sundial_now();
INSERT INTO t VALUES (11);
SELECT sundial_stamp();
SET sundial.greatest_eps = '6ms';
INSERT INTO t VALUES (12);
RESET sundial.greatest_eps;
\! $PG_ABS_SRCDIR/writer $PAGE STALE
SELECT status, earliest IS NULL AS none FROM sundial_now();
INSERT INTO t VALUES (13);
SELECT sundial_wait(:stamp);
\! $PG_ABS_SRCDIR/writer $PAGE VOID
SELECT * FROM sundial_now();
INSERT INTO t VALUES (14);
\! $PG_ABS_SRCDIR/writer $PAGE WITHDRAWN
INSERT INTO t VALUES (15);
SELECT sundial_wait(:stamp);
BEGIN; INSERT INTO t VALUES (16); PREPARE TRANSACTION 'sixteen';
\! $PG_ABS_SRCDIR/writer $PAGE DISRUPTED
INSERT INTO t VALUES (17);

-- The file may be made anew, or be gone
\! rm $PAGE; $PG_ABS_SRCDIR/writer $PAGE anew
SET sundial.patience = '20s';
INSERT INTO t VALUES (0);
\! rm $PAGE
\c -
SELECT * FROM sundial_now();
SET sundial.commit_wait = on;
INSERT INTO t VALUES (18);
SELECT a FROM t WHERE a > 10;
SELECT count(*) FROM pg_prepared_xacts;

-- Or it waits, as long as it may
SET sundial.patience = '100ms';
SELECT clock_timestamp() AS begun \gset
INSERT INTO t VALUES (19);
SELECT clock_timestamp() - :'begun' > '100ms' AS waited;
SET sundial.patience = '20s';
\! (sleep 0.5; $PG_ABS_SRCDIR/writer $PAGE anew) &
SELECT clock_timestamp() AS begun \gset
INSERT INTO t VALUES (20) RETURNING pg_current_xact_id() AS id \gset
SELECT clock_timestamp() - :'begun' > '100ms' AS waited;
SELECT * FROM stamped(:id::text::xid8);
SELECT a FROM t WHERE a > 12;

-- Who may do what
CREATE ROLE regress_anybody;
GRANT ALL ON t TO regress_anybody;
SET ROLE regress_anybody;
SET sundial.commit_wait = off;
SET sundial.greatest_eps = '1h';
INSERT INTO sundial.commits VALUES ('1', 1);
INSERT INTO t VALUES (21) RETURNING pg_current_xact_id() AS id \gset
SELECT commits FROM stamped(:id::text::xid8);
RESET ROLE;
SET sundial.page = '/elsewhere';
-- Without its table there is no commit, and a table of that name is none
SET sundial.commit_wait = off;
DROP EXTENSION sundial CASCADE;
CREATE SCHEMA sundial CREATE TABLE commits (xid text);
SET sundial.commit_wait = on;
INSERT INTO t VALUES (22);
SELECT a FROM t WHERE a > 21;
SET sundial.commit_wait = off;
DROP OWNED BY regress_anybody;
DROP ROLE regress_anybody;
