-- What CREATE EXTENSION makes: the three functions, and the table of stamps.
CREATE SCHEMA sundial;
CREATE TABLE sundial.commits (xid xid8 PRIMARY KEY, stamp bigint NOT NULL);
COMMENT ON TABLE sundial.commits IS 'the stamp of each transaction that was committed with sundial.commit_wait, in ns of the reference time';
GRANT USAGE ON SCHEMA sundial TO PUBLIC;
GRANT SELECT ON sundial.commits TO PUBLIC;

CREATE FUNCTION sundial_now(OUT earliest bigint, OUT latest bigint, OUT eps bigint, OUT status text)
    LANGUAGE c VOLATILE PARALLEL SAFE AS 'MODULE_PATHNAME', 'clock_now';
COMMENT ON FUNCTION sundial_now() IS 'the interval in which the reference time lies, in ns';
CREATE FUNCTION sundial_stamp() RETURNS bigint LANGUAGE c VOLATILE PARALLEL RESTRICTED AS 'MODULE_PATHNAME', 'clock_stamp';
COMMENT ON FUNCTION sundial_stamp() IS 'a stamp: not before the reference time, and greater than all that this cluster has taken';
CREATE FUNCTION sundial_wait(stamp bigint) RETURNS void LANGUAGE c VOLATILE STRICT PARALLEL RESTRICTED AS 'MODULE_PATHNAME', 'clock_wait';
COMMENT ON FUNCTION sundial_wait(bigint) IS 'returns once the reference time has surely passed the stamp';
