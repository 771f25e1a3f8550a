/* wrong.c: programs with one mistake each, by name: a receive that nobody sends to, a rank that is missing, and others.
 *
 * The argument `modes` lists them: the name, the fewest ranks, the value of GERFMUOD_MPI, and regular expressions of what has
 * to be printed, in which LAST is the last rank. */
#include <mpi.h>
#include <pthread.h>
#include <stdio.h>
#include <stdlib.h>
#include <string.h>

static int me, n, next, before, value;
static char out[1 << 20], in[1 << 20];

#define WORLD MPI_COMM_WORLD
#define NO_STATUS MPI_STATUS_IGNORE

static void send_to(int to, int tag) { MPI_Send(&me, 1, MPI_INT, to, tag, WORLD); }
static int is_last(void) { return me == n - 1; }

static void wrong_tag(void) {
    if (me == 0) send_to(1, 7);
    if (me == 1) MPI_Recv(&value, 1, MPI_INT, 0, 8, WORLD, NO_STATUS);
}

static void lost(void) {
    if (me == 0) send_to(1, 7);
}

static void barrier(void) {
    if (!is_last()) MPI_Barrier(WORLD);
}

static void cycle(void) { MPI_Recv(&value, 1, MPI_INT, before, 5, WORLD, NO_STATUS); }

static void two_receives(void) {
    MPI_Request r[2];
    if (me > 1) return;
    for (int k = 0; k < 2; k++) MPI_Irecv(&in[4 * k], 1, MPI_INT, 1 - me, 1, WORLD, &r[k]);
    send_to(1 - me, 1);
    MPI_Waitall(2, r, MPI_STATUSES_IGNORE);
}

/* A master waits for as many answers as there are workers, but worker 1 answers twice. */
static void second_answer(void) {
    MPI_Status s;
    for (int k = 1; k < n && me == 0; k++) {
        MPI_Recv(&value, 1, MPI_INT, MPI_ANY_SOURCE, 1, WORLD, &s);
        send_to(s.MPI_SOURCE, 2);
    }
    if (me == 0) return;
    send_to(0, 1);
    if (me == 1) send_to(0, 1);
    MPI_Recv(&value, 1, MPI_INT, 0, 2, WORLD, NO_STATUS);
    if (me == 1) MPI_Recv(&value, 1, MPI_INT, 0, 2, WORLD, NO_STATUS);
}

static void wildcard(void) {
    if (me == 0) MPI_Recv(&value, 1, MPI_INT, MPI_ANY_SOURCE, MPI_ANY_TAG, WORLD, NO_STATUS);
}

static void probe(void) {
    if (me == 1) send_to(0, 4);
    if (me == 0) MPI_Probe(1, 3, WORLD, NO_STATUS);
}

static void matched_probe(void) {
    MPI_Message message;
    if (me == 0) MPI_Mprobe(1, MPI_ANY_TAG, WORLD, &message, NO_STATUS);
}

static void sendrecv(void) {
    MPI_Sendrecv(&me, 1, MPI_INT, next, 1, &value, 1, MPI_INT, before, me == 0 ? 2 : 1, WORLD, NO_STATUS);
}

static void persistent(void) {
    MPI_Request r;
    if (me == 0) send_to(1, 3);
    if (me != 1) return;
    MPI_Recv_init(&value, 1, MPI_INT, 0, 3, WORLD, &r);
    for (int k = 0; k < 2; k++) {
        MPI_Start(&r);
        MPI_Wait(&r, NO_STATUS);
    }
}

static void waitany(void) {
    MPI_Request r[3] = {MPI_REQUEST_NULL, MPI_REQUEST_NULL, MPI_REQUEST_NULL};
    int index;
    if (me) return;
    MPI_Irecv(&in[0], 1, MPI_INT, 1, 11, WORLD, &r[0]);
    MPI_Irecv(&in[8], 1, MPI_INT, 1, 12, WORLD, &r[2]);
    MPI_Waitany(3, r, &index, NO_STATUS);
}

/* The receive with wildcards takes the message that the other one waits for. */
static void stolen(void) {
    MPI_Request r;
    if (me == 1) send_to(0, 5);
    if (me) return;
    MPI_Irecv(in, 1, MPI_INT, MPI_ANY_SOURCE, MPI_ANY_TAG, WORLD, &r);
    MPI_Recv(&value, 1, MPI_INT, 1, 5, WORLD, NO_STATUS);
}

static void waitsome(void) {
    MPI_Request r;
    int count, index;
    if (!is_last()) return;
    MPI_Irecv(in, 1, MPI_INT, 0, 13, WORLD, &r);
    MPI_Waitsome(1, &r, &count, &index, MPI_STATUSES_IGNORE);
}

static void replaced(void) {
    MPI_Sendrecv_replace(&value, 1, MPI_INT, next, me, before, is_last() ? me : before, WORLD, NO_STATUS);
}

/* The last rank waits for a root that waits for it; no other rank has come. */
static void root(void) {
    MPI_Request r;
    if (me == 0) MPI_Recv(&value, 1, MPI_INT, n - 1, 1, WORLD, NO_STATUS);
    if (me == 0) MPI_Ibcast(&value, 1, MPI_INT, 0, WORLD, &r);
    if (is_last()) MPI_Ibcast(&value, 1, MPI_INT, 0, WORLD, &r);
    if (me == 0 || is_last()) MPI_Wait(&r, NO_STATUS);
    if (is_last()) send_to(0, 1);
}

/* The root of a broadcast may go on before the others have come, or may not. */
static void unsafe(void) {
    if (me == 1) MPI_Recv(&value, 1, MPI_INT, 0, 1, WORLD, NO_STATUS);
    MPI_Bcast(&value, 1, MPI_INT, 0, WORLD);
    if (me == 0) send_to(1, 1);
}

static void mismatch(void) {
    if (is_last()) MPI_Bcast(&value, 1, MPI_INT, 0, WORLD);
    else MPI_Barrier(WORLD);
}

#if MPI_VERSION >= 4
static void partitions(void) {
    MPI_Request r = MPI_REQUEST_NULL;
    if (me == 0) MPI_Psend_init(out, 2, 4, MPI_BYTE, 1, 3, WORLD, MPI_INFO_NULL, &r);
    if (me == 1) MPI_Precv_init(in, 2, 4, MPI_BYTE, 0, 3, WORLD, MPI_INFO_NULL, &r);
    if (me < 2) MPI_Start(&r);
    if (me == 0) MPI_Pready(1, r);
    if (me == 1) MPI_Wait(&r, NO_STATUS);
}
#endif

static void split(void) {
    MPI_Comm half;
    int rank;
    MPI_Comm_split(WORLD, me % 2, 0, &half);
    MPI_Comm_set_name(half, "half");
    MPI_Comm_rank(half, &rank);
    if (me == 0) MPI_Recv(&value, 1, MPI_INT, rank, 9, half, NO_STATUS);
}

static void duplicate(void) {
    MPI_Comm copy;
    if (!is_last()) MPI_Comm_dup(WORLD, &copy);
}

static void leaves(void) {
    if (is_last()) exit(0);
    MPI_Barrier(WORLD);
}

static void nonblocking_barrier(void) {
    MPI_Request r;
    if (is_last()) return;
    MPI_Ibarrier(WORLD, &r);
    MPI_Wait(&r, NO_STATUS);
}

static void cancelled(void) {
    MPI_Request r;
    if (me) return;
    MPI_Irecv(in, 4, MPI_BYTE, 1, 1, WORLD, &r);
    MPI_Cancel(&r);
    MPI_Wait(&r, NO_STATUS);
    MPI_Recv(in, 4, MPI_BYTE, 1, 2, WORLD, NO_STATUS);
}

static void synchronous(void) {
    if (me == 0) MPI_Ssend(&me, 1, MPI_INT, 1, 6, WORLD);
}

static void reduction(void) {
    if (!is_last()) MPI_Reduce(&me, &value, 1, MPI_INT, MPI_SUM, 0, WORLD);
}

static void neighbours(void) {
    MPI_Comm ring;
    int periodic = 1, mine[2] = {me, me}, got[2];
    MPI_Cart_create(WORLD, 1, &n, &periodic, 0, &ring);
    if (!is_last()) MPI_Neighbor_alltoall(mine, 1, MPI_INT, got, 1, MPI_INT, ring);
}

/* Messages before the receives: right only if MPI buffers them, which it does not if they are large. */
static void heads(void) {
    MPI_Send(out, 100, MPI_BYTE, next, 9, WORLD);
    MPI_Recv(in, sizeof in, MPI_BYTE, before, 9, WORLD, NO_STATUS);
}

static void large(void) {
    MPI_Send(out, sizeof out, MPI_BYTE, next, 9, WORLD);
    MPI_Recv(in, sizeof in, MPI_BYTE, before, 9, WORLD, NO_STATUS);
}

static void *receive(void *unused) {
    MPI_Recv(in, 1, MPI_INT, before, 14, WORLD, NO_STATUS);
    return unused;
}

static void two_threads(void) {
    pthread_t other;
    pthread_create(&other, NULL, receive, NULL);
    receive(NULL);
    pthread_join(other, NULL);
}

#define WAITS(rank, call, peer, function) "gerfmuod: " rank "(-[0-9]+)? +" call " +" peer ".* wrong\\.c:[0-9]+ in " function
static const struct mode {
    const char *name;
    void (*run)(void);
    int ranks;
    const char *options, *printed[2];
} modes[] = {
    {"tag", wrong_tag, 2, "",
     {WAITS("1", "MPI_Recv", "message from 0, tag 8", "wrong_tag"),
      "rank 1 has not received 4 bytes from rank 0, tag 7"}},
    {"lost", lost, 2, "",
     {"LOST: 1 message that no rank received",
      "rank 1 has not received 4 bytes from rank 0, tag 7, MPI_COMM_WORLD, sent at wrong\\.c:[0-9]+ in (send_to|lost)"}},
    {"barrier", barrier, 2, "", {WAITS("0", "MPI_Barrier", "rank LAST, in collective call 1", "barrier")}},
    {"cycle", cycle, 2, "", {WAITS("0", "MPI_Recv", "message from LAST, tag 5", "cycle")}},
    {"wait", two_receives, 2, "", {WAITS("0", "MPI_Waitall", "message from 1, tag 1", "two_receives")}},
    {"answer", second_answer, 3, "",
     {WAITS("[0-9]+", "MPI_Recv", "message from 0, tag 2", "second_answer"),
      "rank 0 has not received 4 bytes from rank [0-9]+, tag 1"}},
    {"wildcard", wildcard, 2, "", {WAITS("0", "MPI_Recv", "message from any, tag any", "wildcard")}},
    {"probe", probe, 2, "",
     {WAITS("0", "MPI_Probe", "message from 1, tag 3", "probe"),
      "rank 0 has not received 4 bytes from rank 1, tag 4"}},
    {"mprobe", matched_probe, 2, "", {WAITS("0", "MPI_Mprobe", "message from 1, tag any", "matched_probe")}},
    {"sendrecv", sendrecv, 2, "", {WAITS("0", "MPI_Sendrecv", "message from LAST, tag 2", "sendrecv")}},
    {"replace", replaced, 2, "", {WAITS("LAST", "MPI_Sendrecv_replace", "message from [0-9]+, tag LAST", "replaced")}},
    {"persistent", persistent, 2, "", {WAITS("1", "MPI_Wait", "message from 0, tag 3", "persistent")}},
    {"waitany", waitany, 2, "",
     {WAITS("0", "MPI_Waitany", "message from 1, tag 11", "waitany"), "message from 1, tag 12"}},
    {"waitsome", waitsome, 2, "", {WAITS("LAST", "MPI_Waitsome", "message from 0, tag 13", "waitsome")}},
    {"stolen", stolen, 2, "", {WAITS("0", "MPI_Recv", "message from 1, tag 5", "stolen")}},
    {"split", split, 2, "", {WAITS("0", "MPI_Recv", "message from 0, tag 9, half", "split")}},
    {"dup", duplicate, 2, "", {WAITS("0", "MPI_Comm_dup", "rank LAST, in collective call 1", "duplicate")}},
    {"exit", leaves, 2, "",
     {"rank LAST: exit with status 0 without MPI_Finalize",
      WAITS("0", "MPI_Barrier", "rank LAST, in collective call 1", "leaves")}},
    {"ibarrier", nonblocking_barrier, 2, "",
     {WAITS("0", "MPI_Wait", "rank LAST, in collective call 1", "nonblocking_barrier")}},
    {"root", root, 2, "",
     {WAITS("0", "MPI_Recv", "message from LAST, tag 1", "root"),
      WAITS("LAST", "MPI_Wait", "rank 0, in collective call 1", "root")}},
    {"cancel", cancelled, 2, "", {WAITS("0", "MPI_Recv", "message from 1, tag 2", "cancelled")}},
    {"ssend", synchronous, 2, "", {WAITS("0", "MPI_Ssend", "receive of 1, tag 6", "synchronous")}},
    {"unsafe", unsafe, 2, "", {"UNSAFE: .* ranks wait", WAITS("1", "MPI_Recv", "message from 0, tag 1", "unsafe")}},
    {"reduce", reduction, 2, "abort", {WAITS("0", "MPI_Reduce", "rank LAST, in collective call 1", "reduction")}},
    {"neighbours", neighbours, 2, "abort",
     {WAITS("0", "MPI_Neighbor_alltoall", "rank LAST, in collective call 1", "neighbours")}},
    {"mismatch", mismatch, 2, "abort",
     {"collective call 1 of MPI_COMM_WORLD: rank LAST calls MPI_Bcast with root 0 at wrong\\.c:[0-9]+ in mismatch, "
      "rank 0 calls MPI_Barrier"}},
    {"threads", two_threads, 2, "", {"rank [0-9]+: two threads call MPI at the same time"}},
    {"large", large, 2, "", {WAITS("0", "MPI_Send", "receive of 1, tag 9", "large")}},
    {"heads", heads, 2, "sync", {WAITS("0", "MPI_Send", "receive of 1, tag 9", "heads")}},
#if MPI_VERSION >= 4
    {"partitions", partitions, 2, "", {WAITS("1", "MPI_Wait", "partitions from 0, tag 3", "partitions")}},
#endif
};
enum { MODES = sizeof modes / sizeof *modes };

static int list(void) {
    for (const struct mode *m = modes; m < modes + MODES; m++)
        printf("%s\t%d\t%s\t%s\t%s\n", m->name, m->ranks, m->options, m->printed[0], m->printed[1] ? m->printed[1] : "");
    return 0;
}

int main(int count, char **arguments) {
    int found = 0, granted;
    if (count < 2 || !strcmp(arguments[1], "modes")) return list();
    MPI_Init_thread(&count, &arguments, strcmp(arguments[1], "threads") ? MPI_THREAD_SINGLE : MPI_THREAD_MULTIPLE, &granted);
    MPI_Comm_rank(WORLD, &me);
    MPI_Comm_size(WORLD, &n);
    next = (me + 1) % n;
    before = (me + n - 1) % n;
    for (int k = 0; k < MODES; k++)
        if (!strcmp(modes[k].name, arguments[1])) modes[k].run(), found = 1;
    MPI_Finalize();
    return !found;
}
