/* life.c: MPI_Init, MPI_Finalize and the end of the program; the options of this library. */
#define _GNU_SOURCE
#include "wrapper.h"
#include <stdio.h>
#include <stdlib.h>
#include <string.h>
#include <unistd.h>

#ifdef OPEN_MPI
enum { IS_FOR_OPEN_MPI = 1 };
#else
enum { IS_FOR_OPEN_MPI = 0 };
#endif
/* No MPI buffers messages of this size. */
enum { SYNC_BYTES = 1 << 20 };
struct checker checker;
static pid_t process_id;

static int read_option(const char *option) {
    if (!strcmp(option, "off")) return 0;
    if (!strcmp(option, "sync")) checker.is_sync = 1;
    else if (!strncmp(option, "sync=", 5)) checker.sync_bytes = atoll(option + 5);
    else if (!strcmp(option, "abort")) checker.is_strict = 1;
    else if (!strcmp(option, "report")) checker.has_report = 1;
    else if (!strncmp(option, "status=", 7)) checker.lost_status = atoi(option + 7);
    else if (!strncmp(option, "json=", 5)) checker.json_path = strdup(option + 5);
    else fprintf(stderr, "gerfmuod: GERFMUOD_MPI: no option: %s\n", option);
    return 1;
}

static int read_options(void) {
    const char *options = getenv("GERFMUOD_MPI");
    char *copy = strdup(options ? options : ""), *rest = copy;
    int is_on = 1;
    checker.sync_bytes = SYNC_BYTES;
    for (char *option; copy && (option = strsep(&rest, ","));) is_on = (!*option || read_option(option)) && is_on;
    free(copy);
    return is_on;
}

static void wait_for_all(enum wait_kind kind, const char *call, const void *place);

static int has_exited, exit_status;

static void note_exit(int status, void *unused) {
    (void)unused;
    exit_status = status;
    has_exited = 1;
}

/* A program that ends by exit(0) without MPI_Finalize waits here as in a call that nothing ends, and so is reported. All that the
 * program does at its exit is over, so it calls MPI_Finalize no more. */
__attribute__((destructor)) static void at_end(void) {
    int is_finalized;
    if (!checker.is_on || !has_exited || getpid() != process_id) return;
    PMPI_Finalized(&is_finalized);
    if (is_finalized) return;
    fprintf(stderr, "gerfmuod: rank %d: exit with status %d without MPI_Finalize\n", checker.me, exit_status);
    if (!exit_status && !checker.is_blind) wait_for_all(WAIT_EXIT, "exit without MPI_Finalize", NULL);
}

/* The handles of two MPIs differ, so a library that was compiled for one cannot pass on those of the other. */
static void refuse_other_mpi(void) {
    static char name[8192];
    int length, is_open_mpi;
    PMPI_Get_library_version(name, &length);
    is_open_mpi = strstr(name, "Open MPI") != NULL;
    if (is_open_mpi == IS_FOR_OPEN_MPI) return;
    fprintf(stderr, "gerfmuod: this library is compiled for %s, but the program runs with another MPI\n",
            IS_FOR_OPEN_MPI ? "Open MPI" : "MPICH");
    exit(1);
}

static MPI_Comm duplicate(void) {
    MPI_Comm copy;
    MPI_Request request;
    PMPI_Comm_idup(MPI_COMM_WORLD, &copy, &request);
    await(&request);
    return copy;
}

/* By what mpirun says of this computer. */
static int is_crowded(void) {
    const char *ranks = getenv(IS_FOR_OPEN_MPI ? "OMPI_COMM_WORLD_LOCAL_SIZE" : "MPI_LOCALNRANKS");
    return ranks && atol(ranks) > sysconf(_SC_NPROCESSORS_ONLN);
}

static void begin(void) {
    fortran_hook();
    checker.is_crowded = is_crowded();
    checker.own = duplicate();
    checker.report = duplicate();
    checker.closing = duplicate();
    PMPI_Comm_rank(checker.own, &checker.me);
    PMPI_Comm_size(checker.own, &checker.all);
    checker.begin = seconds();
    process_id = getpid();
    detector_open();
    comm_open();
    on_exit(note_exit, NULL);
    checker.is_on = 1;
}

int MPI_Init(int *count, char ***arguments) {
    int is_watched = read_options(), result;
    refuse_other_mpi();
    result = PMPI_Init(count, arguments);
    if (is_watched && result == MPI_SUCCESS) begin();
    return result;
}

int MPI_Init_thread(int *count, char ***arguments, int wanted, int *granted) {
    int is_multiple = wanted == MPI_THREAD_MULTIPLE, result;
    refuse_other_mpi();
    if (!read_options()) return PMPI_Init_thread(count, arguments, wanted, granted);
    result = PMPI_Init_thread(count, arguments, is_multiple ? MPI_THREAD_SERIALIZED : wanted, granted);
    if (result != MPI_SUCCESS) return result;
    begin();
    if (!is_multiple) return result;
    threads_guard();
    if (*granted == MPI_THREAD_MULTIPLE) *granted = MPI_THREAD_SERIALIZED;
    if (checker.me == 0)
        fprintf(stderr, "gerfmuod: rank 0: MPI_THREAD_MULTIPLE is not served: MPI_THREAD_SERIALIZED is granted\n");
    return result;
}

/* Waits until all ranks are here, and the detector says that nothing is left; if some rank gave up, only until all are here. */
static void wait_for_all(enum wait_kind kind, const char *call, const void *place) {
    struct wait wait = {.kind = kind, .call = call, .place = place};
    MPI_Request request = MPI_REQUEST_NULL;
    int blind = 0, mine = checker.is_blind, are_here = 0;
    if (kind == WAIT_FINALIZE) PMPI_Iallreduce(&mine, &blind, 1, MPI_INT, MPI_MAX, checker.closing, &request);
    while (!is_over()) {
        detector_rest(&wait);
        if (kind == WAIT_FINALIZE && !are_here) PMPI_Test(&request, &are_here, MPI_STATUS_IGNORE);
        if ((are_here && blind) || ((are_here || kind == WAIT_EXIT) && checker.is_blind)) return;
    }
    if (!are_here && kind == WAIT_FINALIZE) await(&request);
}

int MPI_Finalize(void) {
    int result, lost = 0;
    ENTER;
    if (!checker.is_on) return PMPI_Finalize();
    wait_for_all(WAIT_FINALIZE, "MPI_Finalize", CALLER);
    if (is_over()) lost = report_lost();
    else if (checker.me == 0) fprintf(stderr, "gerfmuod: no verdict\n");
    detector_close();
    checker.is_on = 0;
    result = PMPI_Finalize();
    if (lost && checker.lost_status) exit(checker.lost_status);
    return result;
}

int MPI_Abort(MPI_Comm comm, int status) {
    checker.is_on = 0;
    return PMPI_Abort(comm, status);
}
