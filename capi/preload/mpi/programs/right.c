/* right.c MODE [TIMES]: programs without a mistake, by name, each with a sum that it checks; some are slow. No verdict may be printed.
 *
 * The argument `modes` lists them, as in wrong.c. A mode runs TIMES times, with a barrier between. */
#include <mpi.h>
#include <pthread.h>
#include <stdio.h>
#include <stdlib.h>
#include <string.h>
#include <unistd.h>

static int me, n, next, before, times = 1, ran;
static char *path;
static MPI_Comm parent;
enum { ROUNDS = 50 };

#define WORLD MPI_COMM_WORLD
#define NO_STATUS MPI_STATUS_IGNORE

static void check(int is_right, const char *what) {
    if (is_right) return;
    printf("rank %d: wrong: %s\n", me, what);
    MPI_Abort(WORLD, 3);
}

static void ring(void) {
    for (int k = 0, x = -1; k < ROUNDS; k++) {
        MPI_Send(&k, 1, MPI_INT, next, 5, WORLD);
        MPI_Recv(&x, 1, MPI_INT, before, 5, WORLD, NO_STATUS);
        check(x == k, "ring");
    }
}

/* A synchronous send ends when its receive is posted, long before the receive's wait. */
static void synchronous(void) {
    int x = -1;
    MPI_Request r;
    MPI_Irecv(&x, 1, MPI_INT, before, 3, WORLD, &r);
    MPI_Barrier(WORLD);
    MPI_Ssend(&me, 1, MPI_INT, next, 3, WORLD);
    MPI_Barrier(WORLD);
    MPI_Wait(&r, NO_STATUS);
    check(x == before, "synchronous");
}

static void master(void) {
    int x = 0, sum = 0;
    MPI_Status s;
    for (int k = 0; k < ROUNDS * (n - 1) && me == 0; k++) {
        MPI_Recv(&x, 1, MPI_INT, MPI_ANY_SOURCE, MPI_ANY_TAG, WORLD, &s);
        sum += x;
        MPI_Send(&x, 1, MPI_INT, s.MPI_SOURCE, s.MPI_TAG + 1, WORLD);
    }
    check(me || sum == ROUNDS * (n - 1), "master");
    for (int k = 0, one = 1; k < ROUNDS && me; k++) {
        if (k % 2) MPI_Ssend(&one, 1, MPI_INT, 0, k, WORLD);
        else MPI_Send(&one, 1, MPI_INT, 0, k, WORLD);
        MPI_Recv(&x, 1, MPI_INT, 0, k + 1, WORLD, NO_STATUS);
    }
}

static void requests(void) {
    int got[ROUNDS], indices[ROUNDS], done = 0, left = ROUNDS, index, is_done = 0;
    MPI_Request r[ROUNDS], s[ROUNDS];
    MPI_Status one = {.MPI_ERROR = 42};
    for (int k = 0; k < ROUNDS; k++) MPI_Irecv(&got[k], 1, MPI_INT, before, k % 7, WORLD, &r[k]);
    for (int k = 0; k < ROUNDS; k++) MPI_Isend(&me, 1, MPI_INT, next, k % 7, WORLD, &s[k]);
    MPI_Waitany(0, r, &index, &one);
    check(index == MPI_UNDEFINED && one.MPI_SOURCE == MPI_ANY_SOURCE && one.MPI_ERROR == 42, "no requests");
    MPI_Waitany(ROUNDS, r, &index, &one);
    check(one.MPI_SOURCE == before && one.MPI_ERROR == 42, "one status");
    MPI_Waitsome(ROUNDS, r, &done, indices, MPI_STATUSES_IGNORE);
    left -= 1 + (done == MPI_UNDEFINED ? 0 : done);
    while (left > 0) {
        MPI_Testsome(ROUNDS, r, &done, indices, MPI_STATUSES_IGNORE);
        if (done != MPI_UNDEFINED) left -= done;
    }
    while (!is_done) MPI_Testall(ROUNDS, s, &is_done, MPI_STATUSES_IGNORE);
    for (int k = 0; k < ROUNDS; k++) check(got[k] == before, "requests");
}

static void persistent(void) {
    int x = -1;
    MPI_Request r[2];
    MPI_Recv_init(&x, 1, MPI_INT, before, 1, WORLD, &r[0]);
    MPI_Send_init(&me, 1, MPI_INT, next, 1, WORLD, &r[1]);
    for (int k = 0; k < ROUNDS; k++) {
        MPI_Startall(2, r);
        MPI_Waitall(2, r, MPI_STATUSES_IGNORE);
        check(x == before, "persistent");
    }
    for (int k = 0; k < 2; k++) MPI_Request_free(&r[k]);
}

static void probes(void) {
    int x, is_there = 0;
    MPI_Status s;
    MPI_Message m;
    for (int k = 0; k < 3; k++) MPI_Send(&me, 1, MPI_INT, next, k, WORLD);
    MPI_Probe(before, MPI_ANY_TAG, WORLD, &s);
    MPI_Recv(&x, 1, MPI_INT, before, s.MPI_TAG, WORLD, NO_STATUS);
    MPI_Mprobe(MPI_ANY_SOURCE, 1, WORLD, &m, &s);
    MPI_Mrecv(&x, 1, MPI_INT, &m, NO_STATUS);
    check(x == before, "probes");
    while (!is_there) MPI_Improbe(before, 2, WORLD, &is_there, &m, &s);
    MPI_Mrecv(&x, 1, MPI_INT, &m, NO_STATUS);
}

static void collectives(void) {
    int x = me, sum = 0, *all = malloc(sizeof *all * (size_t)n);
    MPI_Request r[3];
    for (int k = 0; k < ROUNDS / 5; k++) {
        MPI_Bcast(&x, 1, MPI_INT, k % n, WORLD);
        MPI_Reduce(&me, &sum, 1, MPI_INT, MPI_SUM, k % n, WORLD);
        MPI_Scan(&me, &sum, 1, MPI_INT, MPI_SUM, WORLD);
        check(sum == me * (me + 1) / 2, "scan");
        MPI_Allreduce(&me, &sum, 1, MPI_INT, MPI_SUM, WORLD);
        check(sum == n * (n - 1) / 2, "allreduce");
        MPI_Iallreduce(&me, &sum, 1, MPI_INT, MPI_SUM, WORLD, &r[0]);
        MPI_Iallgather(&me, 1, MPI_INT, all, 1, MPI_INT, WORLD, &r[1]);
        MPI_Ibarrier(WORLD, &r[2]);
        MPI_Waitall(3, r, MPI_STATUSES_IGNORE);
        check(all[n - 1] == n - 1, "allgather");
        MPI_Gather(&me, 1, MPI_INT, all, 1, MPI_INT, 0, WORLD);
        MPI_Scatter(all, 1, MPI_INT, &x, 1, MPI_INT, 0, WORLD);
        check(x == me, "scatter");
    }
    free(all);
}

static void communicators(void) {
    MPI_Comm half, copy, later, group_comm;
    MPI_Group world, evens;
    MPI_Request r;
    int x = -1, rank, size, range[1][3] = {{0, n - 1, 2}};
    MPI_Comm_split(WORLD, me % 2, -me, &half);
    MPI_Comm_rank(half, &rank), MPI_Comm_size(half, &size);
    MPI_Sendrecv(&me, 1, MPI_INT, (rank + 1) % size, 0, &x, 1, MPI_INT, (rank + size - 1) % size, 0, half, NO_STATUS);
    MPI_Comm_dup(half, &copy);
    MPI_Comm_idup(WORLD, &later, &r);
    MPI_Barrier(copy);
    MPI_Wait(&r, NO_STATUS);
    MPI_Send(&me, 1, MPI_INT, next, 0, later);
    MPI_Recv(&x, 1, MPI_INT, before, 0, later, NO_STATUS);
    check(x == before, "idup");
    MPI_Comm_group(WORLD, &world);
    MPI_Group_range_incl(world, 1, range, &evens);
    if (me % 2 == 0) {
        MPI_Comm_create_group(WORLD, evens, 1, &group_comm);
        MPI_Barrier(group_comm);
        MPI_Comm_free(&group_comm);
    }
    MPI_Comm_free(&copy), MPI_Comm_free(&half), MPI_Comm_free(&later);
}

/* A receive that is cancelled, and one that is freed before its message comes. */
static void cancelled(void) {
    static int x;
    int is_cancelled;
    MPI_Request r;
    MPI_Status s;
    MPI_Irecv(&x, 1, MPI_INT, before, 77, WORLD, &r), MPI_Cancel(&r), MPI_Wait(&r, &s);
    MPI_Test_cancelled(&s, &is_cancelled);
    check(is_cancelled, "cancelled");
    MPI_Irecv(&x, 1, MPI_INT, before, 78, WORLD, &r), MPI_Request_free(&r);
    MPI_Barrier(WORLD);
    MPI_Send(&me, 1, MPI_INT, next, 78, WORLD);
}

static void intercommunicator(void) {
    MPI_Comm half, inter, merged;
    int x = -1, sum = 0;
    MPI_Comm_split(WORLD, me % 2, 0, &half);
    MPI_Intercomm_create(half, 0, WORLD, 1 - me % 2, 5, &inter);
    if (me == 0) MPI_Send(&me, 1, MPI_INT, 0, 1, inter);
    if (me == 1) MPI_Recv(&x, 1, MPI_INT, 0, 1, inter, NO_STATUS);
    MPI_Intercomm_merge(inter, me % 2, &merged);
    MPI_Allreduce(&me, &sum, 1, MPI_INT, MPI_SUM, merged);
    check(sum == n * (n - 1) / 2, "merged");
}

/* One rank works for long, while all others wait for it in different calls. */
static void slow(void) {
    int x = 0;
    if (me == 0) sleep(3), MPI_Send(&me, 1, MPI_INT, 1, 7, WORLD);
    if (me == 1) MPI_Recv(&x, 1, MPI_INT, MPI_ANY_SOURCE, MPI_ANY_TAG, WORLD, NO_STATUS);
    MPI_Bcast(&x, 1, MPI_INT, 0, WORLD);
    MPI_Barrier(WORLD);
}

/* Spawns this program once more, without the library, and has a communicator with the ranks of both. (MPICH 4.0.2 over UCX cannot.)
 * Only in the first turn: on a busy computer MPI_Comm_spawn of Open MPI 4.1.4 rarely never returns, with the new program in MPI_Init. */
static void spawn(void) {
#ifdef OPEN_MPI
    if (ran > 1) return;
    char program[] = "env", *arguments[] = {"-u", "LD_PRELOAD", path, "spawn", NULL};
    MPI_Comm other = parent, merged;
    int x = parent == MPI_COMM_NULL ? 7 : 0, size;
    if (parent == MPI_COMM_NULL) MPI_Comm_spawn(program, arguments, 1, MPI_INFO_NULL, 0, WORLD, &other, MPI_ERRCODES_IGNORE);
    MPI_Intercomm_merge(other, parent != MPI_COMM_NULL, &merged);
    MPI_Bcast(&x, 1, MPI_INT, 0, merged);
    MPI_Comm_size(merged, &size);
    check(x == 7 && size > n, "spawn");
    MPI_Comm_free(&merged);
    MPI_Comm_disconnect(&other);
#endif
}

/* Receives that this library does not see: at the end it looks for all their messages. */
static void unseen(void) {
    int x = -1;
    for (int k = 0; k < 100; k++) {
        MPI_Send(&me, 1, MPI_INT, next, 1, WORLD);
        PMPI_Recv(&x, 1, MPI_INT, before, 1, WORLD, NO_STATUS);
        check(x == before, "unseen");
    }
}

static void files(void) {
    MPI_File file;
    char name[100];
    int x = -1;
    snprintf(name, sizeof name, "gerfmuod_right_%d", (int)getppid()); /* in the folder of the run; it is deleted on close */
    MPI_Bcast(name, sizeof name, MPI_CHAR, 0, WORLD);
    MPI_File_open(WORLD, name, MPI_MODE_CREATE | MPI_MODE_RDWR | MPI_MODE_DELETE_ON_CLOSE, MPI_INFO_NULL, &file);
    MPI_File_write_at_all(file, me * 4, &me, 1, MPI_INT, NO_STATUS);
    MPI_File_sync(file);
    MPI_Barrier(WORLD);
    MPI_File_read_at_all(file, next * 4, &x, 1, MPI_INT, NO_STATUS);
    check(x == next, "file");
    MPI_File_close(&file);
}

static void partitions(void) {
#if MPI_VERSION >= 4
    int out[4] = {me, me, me, me}, in[4] = {-1, -1, -1, -1};
    MPI_Request r[2];
    MPI_Psend_init(out, 4, 1, MPI_INT, next, 3, WORLD, MPI_INFO_NULL, &r[0]);
    MPI_Precv_init(in, 2, 2, MPI_INT, before, 3, WORLD, MPI_INFO_NULL, &r[1]);
    for (int k = 0; k < 5; k++) {
        MPI_Startall(2, r);
        MPI_Pready(3, r[0]);
        MPI_Pready_range(0, 2, r[0]);
        MPI_Waitall(2, r, MPI_STATUSES_IGNORE);
        check(in[0] == before && in[3] == before, "partitions");
    }
    for (int k = 0; k < 2; k++) MPI_Request_free(&r[k]);
#endif
}

/* Many receives, whose messages come in the opposite order, and large messages. */
static void many(void) {
    static int got[2000], big[2][1 << 18];
    static MPI_Request r[2000];
    for (int k = 0; k < 2000; k++) MPI_Irecv(&got[k], 1, MPI_INT, before, k, WORLD, &r[k]);
    MPI_Barrier(WORLD);
    for (int k = 1999; k >= 0; k--) MPI_Send(&k, 1, MPI_INT, next, k, WORLD);
    MPI_Waitall(2000, r, MPI_STATUSES_IGNORE);
    for (int k = 0; k < 9; k++)
        MPI_Sendrecv(big[0], 1 << 18, MPI_INT, next, 1, big[1], 1 << 18, MPI_INT, before, 1, WORLD, NO_STATUS);
    for (int k = 0; k < 2000; k++) check(got[k] == k, "many");
}

static int receive_one(int way, int tag) {
    int x = -1, index;
    MPI_Request r[2] = {MPI_REQUEST_NULL, MPI_REQUEST_NULL};
    MPI_Status s;
    MPI_Message m;
    if (way == 0) MPI_Recv(&x, 1, MPI_INT, MPI_ANY_SOURCE, tag, WORLD, NO_STATUS);
    if (way == 1) MPI_Probe(MPI_ANY_SOURCE, tag, WORLD, &s), MPI_Recv(&x, 1, MPI_INT, s.MPI_SOURCE, tag, WORLD, NO_STATUS);
    if (way == 2) MPI_Mprobe(MPI_ANY_SOURCE, tag, WORLD, &m, &s), MPI_Mrecv(&x, 1, MPI_INT, &m, NO_STATUS);
    if (way == 3) MPI_Irecv(&x, 1, MPI_INT, MPI_ANY_SOURCE, tag, WORLD, &r[1]), MPI_Waitany(2, r, &index, NO_STATUS);
    return x;
}

/* Others wait 3 seconds for rank 0, each in another call: one of those above, a synchronous send, or one that creates a communicator.
 * Then all wait 3 seconds for the last rank, in MPI_Finalize. */
static void late(void) {
    enum { SYNCHRONOUS = 4, WAYS = 6 };
    MPI_Comm copy;
    if (me == 0) sleep(3);
    for (int rank = 1, way, x = -1; rank < n; rank++) {
        way = (rank + ran) % WAYS;
        if (me == 0 && way < SYNCHRONOUS) MPI_Send(&rank, 1, MPI_INT, rank, 1, WORLD);
        if (me == 0 && way == SYNCHRONOUS) MPI_Recv(&x, 1, MPI_INT, rank, 2, WORLD, NO_STATUS), check(x == rank, "late");
        if (me == rank && way < SYNCHRONOUS) check(receive_one(way, 1) == me, "late");
        if (me == rank && way == SYNCHRONOUS) MPI_Ssend(&me, 1, MPI_INT, 0, 2, WORLD);
    }
    MPI_Comm_dup(WORLD, &copy), MPI_Comm_free(&copy);
    if (me == n - 1 && ran == times) sleep(3);
}

/* Each rank sends to others at random, in rounds, and receives as many messages as all send to it in that round. */
static void random_messages(void) {
    unsigned seed = 1;
    for (int k = 0; k < 4 * ROUNDS; k++) {
        int expected = 0, sum = 0, sent = 0, to = 0;
        MPI_Request r[64];
        for (int from = 0; from < n; from++)
            for (int count = (int)(rand_r(&seed) % 3); count > 0; count--) {
                to = (int)(rand_r(&seed) % (unsigned)n);
                if (from == me && seed % 2) MPI_Isend(&me, 1, MPI_INT, to, k, WORLD, &r[sent++]);
                else if (from == me) MPI_Issend(&me, 1, MPI_INT, to, k, WORLD, &r[sent++]);
                expected += to == me ? from + 1 : 0;
            }
        while (sum < expected) sum += receive_one((k + sum) % 4, k) + 1;
        check(sum == expected, "random");
        MPI_Waitall(sent, r, MPI_STATUSES_IGNORE);
    }
}

static void *other_thread(void *unused) {
    ring();
    return unused;
}

/* Another thread calls MPI while this one waits for its end. */
static void threads(void) {
    pthread_t other;
    pthread_create(&other, NULL, other_thread, NULL);
    pthread_join(other, NULL);
    ring();
}

static const struct mode {
    const char *name;
    void (*run)(void);
} modes[] = {
    {"ring", ring}, {"synchronous", synchronous}, {"master", master}, {"requests", requests}, {"persistent", persistent},
    {"probes", probes}, {"collectives", collectives}, {"communicators", communicators}, {"cancelled", cancelled},
    {"intercommunicator", intercommunicator}, {"files", files}, {"slow", slow}, {"late", late}, {"partitions", partitions},
    {"many", many}, {"threads", threads}, {"random", random_messages}, {"unseen", unseen}, {"spawn", spawn},
};

int main(int count, char **arguments) {
    int granted;
    if (count < 2 || !strcmp(arguments[1], "modes")) {
        for (size_t k = 0; k < sizeof modes / sizeof *modes; k++) printf("%s\t2\t\n", modes[k].name);
        return 0;
    }
    MPI_Init_thread(&count, &arguments, strcmp(arguments[1], "threads") ? MPI_THREAD_SINGLE : MPI_THREAD_MULTIPLE, &granted);
    MPI_Comm_rank(WORLD, &me);
    MPI_Comm_size(WORLD, &n);
    MPI_Comm_get_parent(&parent);
    path = arguments[0];
    if (count > 2) times = atoi(arguments[2]);
    next = (me + 1) % n;
    before = (me + n - 1) % n;
    for (size_t k = 0; k < sizeof modes / sizeof *modes; k++)
        while (!strcmp(modes[k].name, arguments[1]) && ran < times) {
            if (ran++) MPI_Barrier(WORLD);
            modes[k].run();
        }
    MPI_Finalize();
    if (!me && parent == MPI_COMM_NULL) printf("done %d\n", ran);
    return ran < times;
}
