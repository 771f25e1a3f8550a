/* gerfmuod/mpi.h: one task graph over the processes of an MPI communicator. Every process runs the same text: it names all data, each
 * with the process where it lives, and all tasks in the order of the sequential program, each with the data that it reads and
 * writes. The graph finds which task waits for which, and sends each value where it is read.
 *
 *     gerfmuod_mpi *graph;
 *     uint32_t refused = gerfmuod_mpi_open(&graph, MPI_COMM_WORLD);
 *     uint32_t a = gerfmuod_mpi_data(graph, 0, rank == 0 ? &x : NULL, sizeof x), b = ..;
 *     gerfmuod_mpi_task(graph, 0, body, &args, sizeof args, GERFMUOD_READS(a), GERFMUOD_UPDATES(b));
 *     refused = gerfmuod_mpi_run(graph, threads);
 *     gerfmuod_mpi_close(graph);
 *
 * A task runs once, in the process where the data live that it writes, on one of `threads` threads there, after the tasks that the
 * order of the description makes it wait for, with the values that they left: the result is that of the sequential program, if each
 * body touches only what its task names. The order is that of gerfmuod/part.h, which is proved; the copies and the messages are
 * tested. The calling thread is one of the threads, and alone calls MPI, so MPI_THREAD_FUNNELED is enough. It sends and receives between
 * two bodies: a body that runs long there delays the messages of its process.
 *
 * The functions are in gerfmuod/mpi.c, next to this header. It is compiled with the program, by the mpicc of its MPI:
 *     mpicc program.c INCLUDE/gerfmuod/mpi.c -lgerfmuod -pthread
 */
#ifndef GERFMUOD_MPI_H
#define GERFMUOD_MPI_H

#include "graph.h"
#include "process.h"

#include <mpi.h>

#ifdef __cplusplus
extern "C" {
#endif

/* A graph over the processes of a communicator. */
typedef struct gerfmuod_mpi gerfmuod_mpi;

/* The accesses of a task, after its other arguments. */
#define GERFMUOD_READS(handle) {(handle), GERFMUOD_READ}
#define GERFMUOD_WRITES(handle) {(handle), GERFMUOD_WRITE}
#define GERFMUOD_UPDATES(handle) {(handle), GERFMUOD_UPDATE}

/* A body. `values[k]` is the address of the task's k-th datum; it reads and writes what its task names, and nothing else that another
 * body touches. It calls no function of MPI. It returns 0, or another number if it failed: the graph is then stopped everywhere. */
typedef int (*gerfmuod_mpi_body)(const void *arguments, void *const *values);

/* Opens a graph without data or tasks. Collective, over all processes of the communicator, which it copies. *graph is NULL if
 * the call is refused: NO_MEMORY. */
GERFMUOD_CHECKED uint32_t gerfmuod_mpi_open(gerfmuod_mpi **graph, MPI_Comm communicator);

/* The same for a communicator of Fortran, an integer as MPI_Comm_f2c takes it; gerfmuod_mpi.f90 has the calls for Fortran. */
GERFMUOD_CHECKED uint32_t gerfmuod_mpi_open_fortran(gerfmuod_mpi **graph, MPI_Fint communicator);

/* Names a datum of `size` bytes, at most INT_MAX, which lives at `at` in the process `owner`; `at` is ignored in the others. Returns its
 * handle. The memory is the caller's, and is used until gerfmuod_mpi_run returns. */
uint32_t gerfmuod_mpi_data(gerfmuod_mpi *graph, int owner, void *at, size_t size);

/* Describes a task: its class, 0 (which runs first) to 3, its body with `size` bytes of arguments, which are copied, and its accesses:
 *     gerfmuod_mpi_task(graph, 0, body, &arguments, sizeof arguments, GERFMUOD_READS(a), GERFMUOD_WRITES(b))
 * It runs where the first datum that it writes lives or, if it writes none, the first that it reads. The macro is C; C++ has mpi.hpp. */
#define gerfmuod_mpi_task(graph, class_, body, arguments, size, ...)                                                                 \
    gerfmuod_mpi_task_on(graph, class_, body, arguments, size, (const gerfmuod_access[]){__VA_ARGS__},                               \
                         sizeof((const gerfmuod_access[]){__VA_ARGS__}) / sizeof(gerfmuod_access))
void gerfmuod_mpi_task_on(gerfmuod_mpi *graph, uint32_t class_, gerfmuod_mpi_body body, const void *arguments, size_t size,
                          const gerfmuod_access *accesses, size_t count);

/* Runs the graph on `threads` threads in each process, and returns when all tasks of the graph are done, or when it was stopped.
 * Collective; a graph runs once. Returns in every process the same, for the first reason that applies, with no body run but for the
 * last reason:
 *   - the first refusal of a description, in the lowest process that has one: NO_NODE if a datum has no such owner, or a task writes
 *     data of two processes; BAD_SPEC if a datum is too large or a task names none, or as gerfmuod_part_shared_task, which says when
 *     HISTORY_FULL and NO_MEMORY are returned. WRONG_LIFE, before these, if the graph ran. Then NO_THREAD if `threads` is 0,
 *     HISTORY_FULL if data and tasks are more than the tags of the communicator, NO_MEMORY, NOT_STARTED;
 *   - DIFFERENT if the processes described different graphs. gerfmuod_mpi_failed says from which task on;
 *   - STOPPED if a body failed. gerfmuod_mpi_failed says which. If there is no memory for a message in the run, it says so of its task,
 *     or the program is ended by MPI_Abort. */
GERFMUOD_CHECKED uint32_t gerfmuod_mpi_run(gerfmuod_mpi *graph, uint32_t threads);

/* After a run that returned STOPPED: the process and the number of the task whose body failed, tasks counted from 0 in the order of their
 * description. If several failed, one of them, the same in every process.
 * After a run that returned DIFFERENT: the first task that is not the same in all processes, or before which a datum is not, or that one
 * did not describe; and the lowest process that differs there from process 0. At most 32,768 hashes are kept: with n data and tasks, if
 * n is larger, it is the first of at most n / 16,384 tasks among which that one is. */
void gerfmuod_mpi_failed(const gerfmuod_mpi *graph, int *process, uint32_t *task);

/* The number of messages that this process sent. */
uint64_t gerfmuod_mpi_messages(const gerfmuod_mpi *graph);

/* Frees the graph; NULL is ignored. Collective. */
void gerfmuod_mpi_close(gerfmuod_mpi *graph);

/* ---- for a program whose messages are not known before: the detector of gerfmuod/process.h, whose control messages MPI carries */

/* Tags from this one on are the detector's. */
#define GERFMUOD_MPI_FIRST_TAG 32767

/* The detector of one process. The program adds and finishes work, and counts its messages, by the calls on `process`. */
typedef struct gerfmuod_mpi_detector {
    gerfmuod_process process;
    MPI_Comm communicators[2]; /* of even and of odd epochs */
    MPI_Request requests[4];
    gerfmuod_control_message control[4]; /* that are being sent */
} gerfmuod_mpi_detector;

/* Opens a detector, with one piece of work open. Collective, over all processes of the communicator. */
GERFMUOD_CHECKED uint32_t gerfmuod_mpi_detector_open(gerfmuod_mpi_detector *detector, MPI_Comm communicator);

/* The communicator for messages of this epoch. A message of the next one waits in the other until gerfmuod_mpi_detector_reopen. Count a
 * message by gerfmuod_process_count_sent before it is sent; receive only what gerfmuod_mpi_detector_test or _wait found, and then
 * call gerfmuod_process_count_received with `process.epoch`. */
MPI_Comm gerfmuod_mpi_detector_communicator(const gerfmuod_mpi_detector *detector);

/* Takes and sends control messages. *has_message says whether a message of the program is there, which *status describes as MPI_Iprobe
 * does; it is not received. Refused: as gerfmuod_process_next and gerfmuod_process_take. */
GERFMUOD_CHECKED uint32_t gerfmuod_mpi_detector_test(gerfmuod_mpi_detector *detector, int *has_message, MPI_Status *status);

/* The same, but waits until a message is there, or until the epoch has ended: then *has_message is 0. Only for a process without open
 * work. It sleeps between polls, at most 64 microseconds. */
GERFMUOD_CHECKED uint32_t gerfmuod_mpi_detector_wait(gerfmuod_mpi_detector *detector, int *has_message, MPI_Status *status);

/* Begins the next epoch, once the last one has ended, with one piece of work open. Refused: as gerfmuod_process_reopen. */
GERFMUOD_CHECKED uint32_t gerfmuod_mpi_detector_reopen(gerfmuod_mpi_detector *detector);

/* Frees what the detector has, after the end. Collective. */
void gerfmuod_mpi_detector_close(gerfmuod_mpi_detector *detector);

#ifdef __cplusplus
}
#endif
#endif
