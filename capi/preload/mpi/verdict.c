/* verdict.c: what follows from ENDED: the ranks agree whether all of them are in MPI_Finalize, or deadlocked.
 *
 * Before a deadlock is reported, each rank tries once more, for a while, to end its call. By the proof it cannot, if all that
 * the program sends is announced. If a call ends all the same, its rank does not come to the barrier, so nothing is printed. */
#include "check.h"
#include <stdlib.h>
#include <time.h>

enum { FINALIZING, DEBTS, UNSEEN, UNSAFE, STATES };
static const double CONFIRMATION_SECONDS = 0.2;

static enum { AGREEING_NOT_BEGUN, AGREEING, CONFIRMING, GATHERING, OVER } step;
static MPI_Request agreement;
static int states[STATES], sums[STATES];
static double confirm_until;

int is_over(void) { return step == OVER; }

/* mpirun drops at an abort what it has not passed on yet. */
void end_job(int status) {
    nanosleep(&(struct timespec){1, 0}, NULL);
    PMPI_Abort(MPI_COMM_WORLD, status);
    exit(status);
}

static void begin_agreement(const struct wait *wait) {
    states[FINALIZING] = wait->kind == WAIT_FINALIZE;
    states[DEBTS] = checker.debts > 0;
    states[UNSEEN] = checker.unseen > 0;
    states[UNSAFE] = wait->kind == WAIT_MEETING && meeting_can_end(wait->need);
    PMPI_Iallreduce(states, sums, STATES, MPI_INT, MPI_SUM, checker.report, &agreement);
    step = AGREEING;
}

static void agree(void) {
    int is_done;
    PMPI_Test(&agreement, &is_done, MPI_STATUS_IGNORE);
    if (!is_done) return;
    if (sums[DEBTS] || sums[UNSEEN]) {
        give_up("the program has sent or received by calls that this library does not see");
    } else if (sums[FINALIZING] == checker.all) {
        step = OVER;
    } else {
        confirm_until = seconds() + CONFIRMATION_SECONDS;
        step = CONFIRMING;
    }
}

/* One turn after ENDED, in a call that waits. */
void conclude(const struct wait *wait) {
    int is_done = 0;
    switch (step) {
    case AGREEING_NOT_BEGUN: begin_agreement(wait); break;
    case AGREEING: agree(); break;
    case CONFIRMING:
        if (seconds() < confirm_until) break;
        PMPI_Ibarrier(checker.report, &agreement);
        step = GATHERING;
        break;
    case GATHERING:
        PMPI_Test(&agreement, &is_done, MPI_STATUS_IGNORE);
        if (!is_done) break;
        report_deadlock(wait, sums[UNSAFE] > 0);
        PMPI_Ibarrier(checker.report, &agreement);
        await(&agreement); /* rank 0 has printed */
        if (!sums[UNSAFE] || checker.is_strict) end_job(DEADLOCK_STATUS);
        checker.is_loose = 1;
        detector_reopen();
        step = AGREEING_NOT_BEGUN;
        break;
    case OVER: break;
    }
}
