/* gerfmuod/mpi_pool.h: tasks over the processes of an MPI communicator that arise while they run: a task makes others, here or in any
 * other process, and a run ends, in every process, when no task is left anywhere and none is in flight.
 *
 *     gerfmuod_mpi_pool *pool;
 *     uint32_t refused = gerfmuod_mpi_pool_open(&pool, MPI_COMM_WORLD), visit = gerfmuod_mpi_pool_kind(pool, body, context);
 *     if (rank == 0) refused = gerfmuod_mpi_pool_spawn(pool, 0, visit, &root, sizeof root);
 *     refused = gerfmuod_mpi_pool_run(pool, threads);       // body calls gerfmuod_mpi_pool_spawn
 *     gerfmuod_mpi_pool_close(pool);
 *
 * That a run has not ended too early and loses no task is what the counts of tasks and the detector of gerfmuod/process.h guarantee, which
 * are proved; the lists of tasks, the threads and the messages here are tested. For tasks that are all known before, and wait for each
 * other's data: gerfmuod/mpi.h.
 *
 * The calling thread is one of the threads, and alone calls MPI, so MPI_THREAD_FUNNELED is enough. It sends and receives between two
 * bodies: a body that runs long there delays the messages of its process.
 *
 * The functions are in gerfmuod/mpi_pool.c, next to this header. It is compiled with the program, by the mpicc of its MPI:
 *     mpicc program.c INCLUDE/gerfmuod/mpi_pool.c INCLUDE/gerfmuod/mpi.c -lgerfmuod -pthread
 */
#ifndef GERFMUOD_MPI_POOL_H
#define GERFMUOD_MPI_POOL_H

#include "mpi.h"

#ifdef __cplusplus
extern "C" {
#endif

/* The tasks of one process. */
typedef struct gerfmuod_mpi_pool gerfmuod_mpi_pool;

/* A body: runs a task with its `size` bytes of arguments, which are at a multiple of 16 and are freed after it. It may make tasks. It
 * calls no function of MPI. It returns 0, or another number if it failed: the run is then stopped everywhere. Bodies run at the
 * same time, at most one on each thread. */
typedef int (*gerfmuod_mpi_pool_body)(gerfmuod_mpi_pool *pool, void *context, const void *arguments, size_t size);

/* Opens a pool without tasks. Collective, over all processes of the communicator. *pool is NULL if the call is refused: NO_MEMORY. */
GERFMUOD_CHECKED uint32_t gerfmuod_mpi_pool_open(gerfmuod_mpi_pool **pool, MPI_Comm communicator);

/* Names a kind of tasks: their body, and a context that this process passes to it. Every process names the same kinds, in the same
 * order, before the first run. Returns its number, from 0. */
uint32_t gerfmuod_mpi_pool_kind(gerfmuod_mpi_pool *pool, gerfmuod_mpi_pool_body body, void *context);

/* Makes a task of this kind in process `to`, with a copy of `size` bytes: before a run, between two, or in a body on any thread. A task
 * is run once, in the order that the pool likes. Refused, for the first reason that applies, and then no task is made: NO_NODE if there
 * is no such process; BAD_SPEC if there is no such kind or more than INT_MAX bytes; STOPPED if a body of this run failed, as far as is
 * known here; NO_MEMORY; in a run NO_WORK if no body runs here. */
GERFMUOD_CHECKED uint32_t gerfmuod_mpi_pool_spawn(gerfmuod_mpi_pool *pool, int to, uint32_t kind, const void *arguments, size_t size);

/* Runs the tasks on `threads` threads in each process, and returns when no process has a task and none is in flight, or when a body
 * failed and all that run are finished; tasks that did not run are then dropped. Collective; a pool may run several times. Returns in
 * every process the same, for the first reason that applies, with no body run but for the last: in the lowest process that has one,
 * NO_MEMORY, also if a kind could not be kept, NO_THREAD if `threads` is 0, NOT_STARTED; then DIFFERENT if the processes named different
 * numbers of kinds; STOPPED if a body failed. If a process is killed, or a body calls exit(3) or abort, the others wait for it: mpirun of
 * Open MPI and of MPICH ends them and fails within 30 s (tested, on one machine). */
GERFMUOD_CHECKED uint32_t gerfmuod_mpi_pool_run(gerfmuod_mpi_pool *pool, uint32_t threads);

/* After a run that returned STOPPED: the process whose body failed, and the kind of its task. If several failed, the lowest. */
void gerfmuod_mpi_pool_failed(const gerfmuod_mpi_pool *pool, int *process, uint32_t *kind);

/* The number of tasks that this process ran, and of those that it sent to others, over all runs. */
uint64_t gerfmuod_mpi_pool_ran(const gerfmuod_mpi_pool *pool);
uint64_t gerfmuod_mpi_pool_sent(const gerfmuod_mpi_pool *pool);

/* The process and the number of processes, in the communicator of the pool. */
int gerfmuod_mpi_pool_rank(const gerfmuod_mpi_pool *pool);
int gerfmuod_mpi_pool_size(const gerfmuod_mpi_pool *pool);

/* Frees the pool, with the tasks that were made after the last run; NULL is ignored. Collective. */
void gerfmuod_mpi_pool_close(gerfmuod_mpi_pool *pool);

#ifdef __cplusplus
}
#endif
#endif
