/* mpi_cholesky.c: Cholesky factorization of a matrix of doubles in tiles, over MPI. Each process owns tiles (block cyclic), and
 * runs a task graph of its own on threads. A tile that another process finished is an input from outside of that graph.
 *
 *   mpicc -O2 -Icapi/include capi/mpi/mpi_cholesky.c -Llib -lgerfmuod -pthread -lm -o mpi_cholesky
 *   mpirun -n 4 ./mpi_cholesky ORDER TILE THREADS [early]     early: a tile is released before it is received, which has to be
 *                                                             found out
 *
 * With -DHAVE_BLAS the kernels are those of OpenBLAS (-lopenblas). ORDER is a multiple of TILE, at most 181 times as large.
 *
 * The main thread alone calls MPI (MPI_THREAD_FUNNELED). It sends the tiles that a body finished, and receives those of other
 * processes: each is awaited by a task of the graph, its arrival, which the main thread then releases. One call of MPI cannot
 * wait for a message and for a body, so this thread polls. Another thread runs the graph.
 *
 * The end needs no detector here: a process knows which tiles it will get, since each one is a task of its graph. If its pool
 * is over, all of them came; when its own sends are complete, it has nothing left, and MPI_Barrier waits for the others. A
 * program whose processes do not know their messages before needs gerfmuod/process.h, as uts_mpi.c does.
 *
 * Process 0 compares the result with one factorization of the whole matrix. The exit status is not 0 if they differ by 1e-9. */
#define _POSIX_C_SOURCE 200809L
#include "tiles.h"
#include <gerfmuod/team.h>
#include <pthread.h>
#include <string.h>
#include <time.h>

static bool is_early;


/* Of each tile (i, j): the last task here that writes it, or its arrival; and to which processes it is sent. */
static uint32_t *writer;
static bool *goes_to;

/* ---- the graph of this process */
enum kind { FACTOR, SOLVE, SQUARE, PRODUCT, ARRIVAL };
typedef struct {
    enum kind kind;
    int i, j, k;
} job;

static gerfmuod_team *team;
static job *jobs;
static uint32_t tasks, arrivals;

static uint32_t add_task(job t, uint32_t class_, const uint32_t *inputs, size_t count) {
    uint32_t number;
    need(gerfmuod_team_task(team, class_, inputs, count, &number), "task");
    jobs[number] = t, tasks = number + 1;
    return number;
}

/* The task after which tile (i, j) has its last values here. */
static uint32_t source_of(int i, int j) {
    uint32_t *source = &writer[place(i, j)];
    if (*source == GERFMUOD_GRAPH_NONE) { /* the first task that reads a tile of another process */
        *source = add_task((job){ARRIVAL, i, j, 0}, 0, NULL, 0);
        need(gerfmuod_team_outside(team, *source), "outside");
        fill_tile(i, j); /* until the finished one comes */
        arrivals++;
    }
    return *source;
}

/* One task of the factorization, which writes tile (i, j) and reads `count` tiles that are finished. The owner of (i, j) has
 * it in its graph; the owners of the others send them there. */
static void visit(job t, int i, int j, uint32_t class_, const int (*reads)[2], int count) {
    uint32_t inputs[3], waits = 0, *own = &writer[place(i, j)];
    int process = owner(i, j);
    for (int r = 0; r < count; r++) {
        int from = owner(reads[r][0], reads[r][1]);
        if (process == me) inputs[waits++] = source_of(reads[r][0], reads[r][1]);
        else if (from == me) goes_to[place(reads[r][0], reads[r][1]) * processes + process] = true;
    }
    if (process != me) return;
    if (*own == GERFMUOD_GRAPH_NONE) fill_tile(i, j);
    else inputs[waits++] = *own;
    *own = add_task(t, class_, inputs, waits);
}

/* Visits all tasks, in the order of the sequential program. */
static void describe(void) {
    for (int k = 0; k < tiles; k++) {
        visit((job){FACTOR, k, k, k}, k, k, 0, NULL, 0);
        for (int i = k + 1; i < tiles; i++) visit((job){SOLVE, i, k, k}, i, k, 1, (const int[][2]){{k, k}}, 1);
        for (int i = k + 1; i < tiles; i++) {
            visit((job){SQUARE, i, i, k}, i, i, i == k + 1 ? 0 : 2, (const int[][2]){{i, k}}, 1);
            for (int j = k + 1; j < i; j++)
                visit((job){PRODUCT, i, j, k}, i, j, j == k + 1 ? 2 : 3, (const int[][2]){{i, k}, {j, k}}, 2);
        }
    }
}

/* ---- running it: the finished tiles, as a list from the bodies to the main thread */
static struct {
    pthread_mutex_t lock;
    int *places, count;
    bool is_over;
    uint32_t refused;
} finished = {.lock = PTHREAD_MUTEX_INITIALIZER};

static void add_finished(int i, int j) {
    pthread_mutex_lock(&finished.lock);
    finished.places[finished.count++] = place(i, j);
    pthread_mutex_unlock(&finished.lock);
}

static int body(void *context, uint32_t task) {
    (void)context;
    job t = jobs[task];
    switch (t.kind) {
    case FACTOR:
        if (factor(tile, at(t.k, t.k))) return 1;
        break;
    case SOLVE: solve(tile, at(t.k, t.k), at(t.i, t.k)); break;
    case SQUARE: subtract_square(tile, at(t.i, t.k), at(t.i, t.i)); break;
    case PRODUCT: subtract_product(tile, at(t.i, t.k), at(t.j, t.k), at(t.i, t.j)); break;
    case ARRIVAL: break;
    }
    if (t.kind == FACTOR || t.kind == SOLVE) add_finished(t.i, t.k);
    return 0;
}

static void *run_graph(void *threads) {
    uint32_t refused = gerfmuod_team_run(team, *(uint32_t *)threads, body, NULL);
    pthread_mutex_lock(&finished.lock);
    finished.refused = refused, finished.is_over = true;
    pthread_mutex_unlock(&finished.lock);
    return NULL;
}

/* ---- the main thread: messages, whose tag is the place of their tile */
static MPI_Request *requests;
static int sent;

static void send_tile(int at_place) {
    for (int to = 0; to < processes; to++)
        if (goes_to[at_place * processes + to])
            MPI_Isend(numbers[at_place], tile * tile, MPI_DOUBLE, to, at_place, MPI_COMM_WORLD, &requests[sent++]);
}

static void release(int at_place) { need(gerfmuod_team_release(team, writer[at_place]), "release"); }

/* Receives a tile, if one has come, and releases its arrival. */
static bool receive_tile(void) {
    MPI_Status s;
    int is_there;
    MPI_Iprobe(MPI_ANY_SOURCE, MPI_ANY_TAG, MPI_COMM_WORLD, &is_there, &s);
    if (!is_there) return false;
    if (is_early) release(s.MPI_TAG), nanosleep(&(struct timespec){.tv_nsec = 1000000}, NULL);
    MPI_Recv(numbers[s.MPI_TAG], tile * tile, MPI_DOUBLE, s.MPI_SOURCE, s.MPI_TAG, MPI_COMM_WORLD, MPI_STATUS_IGNORE);
    if (!is_early) release(s.MPI_TAG);
    return true;
}

/* Sends and receives until the graph is over and all sends are complete. */
static void communicate(void) {
    for (int taken = 0;;) {
        pthread_mutex_lock(&finished.lock);
        int count = finished.count;
        bool is_over = finished.is_over;
        pthread_mutex_unlock(&finished.lock);
        bool has_acted = receive_tile() || taken < count;
        while (taken < count) send_tile(finished.places[taken++]);
        if (is_over) break; /* all that came was awaited, and all that was finished is on its way */
        if (!has_acted) nanosleep(&(struct timespec){.tv_nsec = 20000}, NULL);
    }
    need(finished.refused, "run");
    MPI_Waitall(sent, requests, MPI_STATUSES_IGNORE);
}

/* Prints one line for all processes; returns whether the result is right. */
static int report(uint32_t threads, double seconds) {
    unsigned long mine[3] = {tasks - arrivals, arrivals, (unsigned long)sent}, all[3];
    double apart = distance();
    int is_right = apart < 1e-9;
    MPI_Reduce(mine, all, 3, MPI_UNSIGNED_LONG, MPI_SUM, 0, MPI_COMM_WORLD);
    if (me == 0) {
        is_right &= all[1] == all[2];
        printf("Cholesky, order %d in tiles of %d: %d processes (%d x %d) with %u threads each, %lu tasks, %lu tiles sent, "
               "%lu received, %.3f s, %.1e from the whole: %s\n",
               order, tile, processes, grid[0], grid[1], threads, all[0], all[2], all[1], seconds, apart,
               is_right ? "right" : "WRONG");
    }
    MPI_Bcast(&is_right, 1, MPI_INT, 0, MPI_COMM_WORLD);
    return is_right;
}

static void allocate_all(void) {
    size_t count = (size_t)tiles * (size_t)tiles, most = count * (size_t)(tiles + 2);
    writer = allocate(count, sizeof *writer);
    memset(writer, 255, count * sizeof *writer);
    goes_to = allocate(count * (size_t)processes, sizeof *goes_to);
    requests = allocate(count * (size_t)processes, sizeof(MPI_Request));
    finished.places = allocate(count, sizeof *finished.places);
    jobs = allocate(most, sizeof *jobs);
}

static void free_all(void) {
    for (int p = 0; p < tiles * tiles; p++) free(numbers[p]);
    free(numbers), free(writer), free(goes_to), free(requests), free(finished.places), free(jobs);
}

int main(int argc, char **argv) {
    pthread_t thread;
    begin(argc, argv, 181); /* a tag may be 32767 at least */
    uint32_t threads = (uint32_t)atoi(argv[3]);
    is_early = argc > 4 && !strcmp(argv[4], "early");
    allocate_all();
    need(gerfmuod_team_open(&team), "open");
    describe();
    MPI_Barrier(MPI_COMM_WORLD);
    double from = MPI_Wtime();
    if (pthread_create(&thread, NULL, run_graph, &threads)) MPI_Abort(MPI_COMM_WORLD, 9);
    communicate();
    MPI_Barrier(MPI_COMM_WORLD);
    double seconds = MPI_Wtime() - from;
    pthread_join(thread, NULL);
    int is_right = report(threads, seconds);
    gerfmuod_team_close(team);
    free_all();
    MPI_Finalize();
    return is_right ? 0 : 1;
}
