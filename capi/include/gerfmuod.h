/* gerfmuod.h: the whole library for C: its refusals, cores, processes, task graphs, teams of threads, parts, and workers.
 *
 * A program may include only what it uses: gerfmuod/core.h for the detector of a task runtime, gerfmuod/process.h for that of a
 * distributed program, gerfmuod/team.h for a task graph on threads, and gerfmuod/graph.h for one with threads of its own;
 * gerfmuod/parts.h for one whose threads are in groups that share no lock, gerfmuod/part.h for one over several processes;
 * gerfmuod/workers.h for tasks that make tasks, and for a task graph whose threads share no lock.
 * gerfmuod/mpi.h and gerfmuod/mpi_pool.h, which have graphs and such tasks over MPI, are not among these.
 */
#ifndef GERFMUOD_ALL_H
#define GERFMUOD_ALL_H

#include "gerfmuod/core.h"
#include "gerfmuod/graph.h"
#include "gerfmuod/part.h"
#include "gerfmuod/parts.h"
#include "gerfmuod/process.h"
#include "gerfmuod/refusals.h"
#include "gerfmuod/team.h"
#include "gerfmuod/workers.h"

#endif
