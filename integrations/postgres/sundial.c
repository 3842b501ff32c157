/* Stamps for PostgreSQL from the clock of a sundial device, and commits that wait until theirs has passed: README.md. */
#include "postgres.h"

#include "access/htup_details.h"
#include "access/table.h"
#include "access/xact.h"
#include "catalog/indexing.h"
#include "catalog/namespace.h"
#include "commands/extension.h"
#include "fmgr.h"
#include "funcapi.h"
#include "miscadmin.h"
#include "pgstat.h"
#include "postmaster/autovacuum.h"
#include "storage/ipc.h"
#include "storage/latch.h"
#include "storage/shmem.h"
#include "utils/builtins.h"
#include "utils/guc.h"
#include "utils/inval.h"
#include "utils/lsyscache.h"
#include "utils/rel.h"
#include "utils/xid8.h"

#define SUNDIAL_NO_LIBRARY
#include "sundial_clock.h"

PG_MODULE_MAGIC;
PG_FUNCTION_INFO_V1(clock_now);
PG_FUNCTION_INFO_V1(clock_stamp);
PG_FUNCTION_INFO_V1(clock_wait);
void _PG_init(void);

static const uint64 MILLISECOND = 1000000, SLEEP = 10000000; /* ns: a cancel waits for a sleep at most */
static const long REST = 5; /* ms between two looks at a clock that gives nothing */

static char *page;
static bool commit_wait;
static int patience;            /* ms */
static double greatest_eps = 1; /* ms */

/* Of the stamps of this cluster: in shared memory, and 0 at its start. All stamps that were committed have passed then. */
static uint64_t *last;
static struct sundial_clock_reader reader;
static Oid table_of_commits; /* that of this database, once it was found */
static shmem_request_hook_type request_before;
static shmem_startup_hook_type startup_before;

/* The page of the clock, which may come after this session. A read of a reader without a page is EMPTY. */
static struct sundial_clock_reader *clock_of_session(void)
{
	if (reader.page == NULL)
		sundial_clock_open(page, &reader);
	return &reader;
}

static uint32_t read_clock(struct sundial_clock_now *now)
{
	return sundial_clock_read(clock_of_session(), (uint64) (greatest_eps * MILLISECOND), now);
}

/* Sees to cancels, to the end of the session and to that of the server. */
static void rest(long ms)
{
	WaitLatch(MyLatch, WL_LATCH_SET | WL_TIMEOUT | WL_EXIT_ON_PM_DEATH, ms, PG_WAIT_EXTENSION);
	ResetLatch(MyLatch);
	CHECK_FOR_INTERRUPTS();
}

/* The clock gives nothing to go on with, since the first time that it did so. The transaction looks again a little later, or it
 * fails. */
static void be_patient(uint64 *since, uint32_t answer)
{
	const uint64 now = sundial_clock_raw();

	*since = *since == 0 ? now : *since;
	sundial_clock_close(&reader); /* (the file may be made anew) */
	if (patience >= 0 && now - *since >= (uint64) patience * MILLISECOND)
		ereport(ERROR, (errcode(ERRCODE_OBJECT_NOT_IN_PREREQUISITE_STATE),
						errmsg("the clock is %s", sundial_clock_name(answer)),
						errhint("Run the transaction again once the clock is GOOD, or raise sundial.patience.")));
	rest(REST);
}

/* A reading that is good enough for a stamp. */
static struct sundial_clock_now good_now(void)
{
	uint64 since = 0;
	struct sundial_clock_now now;

	for (;;)
	{
		uint32_t answer = read_clock(&now);

		if (answer == SUNDIAL_CLOCK_GOOD)
			return now;
		if (answer == SUNDIAL_CLOCK_BUSY)
			rest(0);
		else
			be_patient(&since, answer);
	}
}

/* Until the stamp has surely passed. A stale or a wide interval is right, and the wait goes on by it. */
static struct sundial_clock_now wait_for(uint64 stamp)
{
	uint64 since = 0;
	struct sundial_clock_now now;

	for (;;)
	{
		uint32_t answer;

		pgstat_report_wait_start(PG_WAIT_EXTENSION);
		answer = sundial_clock_wait(clock_of_session(), stamp, SLEEP, &now);
		pgstat_report_wait_end();
		if (answer == SUNDIAL_CLOCK_GOOD)
			return now;
		if (answer == SUNDIAL_CLOCK_NOT_YET || answer == SUNDIAL_CLOCK_STALE || answer == SUNDIAL_CLOCK_BUSY)
			rest(0);
		else
			be_patient(&since, answer);
	}
}

/* A stamp that has passed. One from before a disruption of the clock may be too small: then another is taken. */
static uint64 passed_stamp(void)
{
	for (;;)
	{
		struct sundial_clock_now begun = good_now();
		uint64 stamp = sundial_clock_stamp(&begun, last);

		if (wait_for(stamp).disruptions == begun.disruptions)
			return stamp;
	}
}

/* Something of this table changed: it may be gone. (0: of any) */
static void forget_table(Datum arg, Oid table)
{
	if (table == table_of_commits || !OidIsValid(table))
		table_of_commits = InvalidOid;
}

/* The table of stamps. Where there is no extension, a table of this name is none. */
static Relation open_commits(void)
{
	if (!OidIsValid(table_of_commits))
	{
		if (!OidIsValid(get_extension_oid("sundial", true)))
			ereport(ERROR, (errcode(ERRCODE_OBJECT_NOT_IN_PREREQUISITE_STATE),
							errmsg("sundial.commit_wait is on, and this database has no extension sundial"),
							errhint("Create it, or turn sundial.commit_wait off for this database.")));
		table_of_commits = get_relname_relid("commits", get_namespace_oid("sundial", false));
	}
	return table_open(table_of_commits, RowExclusiveLock);
}

/* The transaction holds all its locks. No commit record is written, so nobody sees it: neither here, nor on a standby, nor after
 * a crash. Its stamp is taken, passes, and is stored by a row of the transaction itself. One that wrote nothing has no
 * stamp: all that it saw has passed. Nobody is told of what a worker of autovacuum commits. */
static void before_commit(XactEvent event, void *arg)
{
	Relation commits;
	Datum values[2];
	bool nulls[2] = {false, false};

	if ((event != XACT_EVENT_PRE_COMMIT && event != XACT_EVENT_PRE_PREPARE) || !commit_wait || IsAutoVacuumWorkerProcess()
		|| !TransactionIdIsValid(GetTopTransactionIdIfAny()))
		return;
	commits = open_commits();
	values[0] = FullTransactionIdGetDatum(GetTopFullTransactionId());
	values[1] = Int64GetDatum((int64) passed_stamp());
	CatalogTupleInsert(commits, heap_form_tuple(RelationGetDescr(commits), values, nulls));
	table_close(commits, NoLock);
}

Datum clock_now(PG_FUNCTION_ARGS)
{
	struct sundial_clock_now now;
	uint32_t answer = read_clock(&now);
	bool none = answer != SUNDIAL_CLOCK_GOOD && answer != SUNDIAL_CLOCK_STALE && answer != SUNDIAL_CLOCK_WIDE;
	Datum values[4] = {0, 0, 0, CStringGetTextDatum(sundial_clock_name(answer))};
	bool nulls[4] = {none, none, none, false};
	TupleDesc columns;

	if (get_call_result_type(fcinfo, NULL, &columns) != TYPEFUNC_COMPOSITE)
		elog(ERROR, "clock_now answers a row");
	if (!none)
	{
		values[0] = Int64GetDatum((int64) now.earliest);
		values[1] = Int64GetDatum((int64) now.latest);
		values[2] = Int64GetDatum((int64) now.eps);
	}
	PG_RETURN_DATUM(HeapTupleGetDatum(heap_form_tuple(BlessTupleDesc(columns), values, nulls)));
}

Datum clock_stamp(PG_FUNCTION_ARGS)
{
	struct sundial_clock_now now = good_now();

	PG_RETURN_INT64((int64) sundial_clock_stamp(&now, last));
}

Datum clock_wait(PG_FUNCTION_ARGS)
{
	int64 stamp = PG_GETARG_INT64(0);

	if (stamp >= 0)
		wait_for((uint64) stamp);
	PG_RETURN_VOID();
}

static void request(void)
{
	if (request_before != NULL)
		request_before();
	RequestAddinShmemSpace(sizeof *last);
}

static void startup(void)
{
	bool found;

	if (startup_before != NULL)
		startup_before();
	last = ShmemInitStruct("sundial", sizeof *last, &found);
	if (!found)
		*last = 0;
}

void _PG_init(void)
{
	if (!process_shared_preload_libraries_in_progress)
		ereport(ERROR, (errmsg("sundial has to be in shared_preload_libraries")));
	DefineCustomStringVariable("sundial.page", "The file of the clock's page.", NULL, &page, "/run/sundial/clock",
							   PGC_POSTMASTER, 0, NULL, NULL, NULL);
	DefineCustomBoolVariable("sundial.commit_wait", "Whether a commit takes a stamp and waits until it has passed.", NULL,
							 &commit_wait, false, PGC_SUSET, 0, NULL, NULL, NULL);
	DefineCustomIntVariable("sundial.patience", "How long a transaction waits for a clock that is not GOOD, before it fails.",
							"0: it fails at once. -1: it waits until it is cancelled.", &patience, 0, -1, INT_MAX, PGC_USERSET,
							GUC_UNIT_MS, NULL, NULL, NULL);
	DefineCustomRealVariable("sundial.greatest_eps", "A clock whose eps is greater is WIDE.",
							 "Stamps rise: one that was taken by a wide clock delays all later ones.", &greatest_eps, 1, 0, 1e6,
							 PGC_SUSET, GUC_UNIT_MS, NULL, NULL, NULL);
	MarkGUCPrefixReserved("sundial");
	request_before = shmem_request_hook;
	shmem_request_hook = request;
	startup_before = shmem_startup_hook;
	shmem_startup_hook = startup;
	CacheRegisterRelcacheCallback(forget_table, (Datum) 0);
	RegisterXactCallback(before_commit, NULL);
}
