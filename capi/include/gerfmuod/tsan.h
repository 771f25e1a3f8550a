/* gerfmuod/tsan.h: the calls on a core, a process and its tasks, and the arrays of a graph as ThreadSanitizer sees them. core.h, process.h
 * and graph.h include this file if they are compiled with -fsanitize=thread. The library is not, so each call first reports that it reads
 * or writes the first bytes of the core, or all of the process, the tasks or the arrays, which a program may read. */
#ifndef GERFMUOD_TSAN_H
#define GERFMUOD_TSAN_H

#include <stddef.h>
#include <stdint.h>

void __tsan_read8(void *address);
void __tsan_write8(void *address);
void __tsan_read_range(void *address, long size); /* as gcc knows them */
void __tsan_write_range(void *address, long size);

#endif

#define GERFMUOD_TSAN(result, access, name, parameters, arguments) \
    static inline result gerfmuod_tsan_##name parameters {         \
        GERFMUOD_TSAN_##access;                                    \
        return gerfmuod_##name arguments;                          \
    }

#if defined(GERFMUOD_CORE_H) && !defined(gerfmuod_core_open)
#define GERFMUOD_TSAN_READ __tsan_read8((void *)(uintptr_t)core)
#define GERFMUOD_TSAN_WRITE __tsan_write8(core)
GERFMUOD_TSAN(uint32_t, WRITE, core_open, (gerfmuod_core *core, uint32_t nodes), (core, nodes))
GERFMUOD_TSAN(uint32_t, WRITE, core_open_unrecorded, (gerfmuod_core *core, uint32_t nodes), (core, nodes))
GERFMUOD_TSAN(uint32_t, WRITE, core_close, (gerfmuod_core *core), (core))
GERFMUOD_TSAN(uint32_t, WRITE, core_restart, (gerfmuod_core *core), (core))
GERFMUOD_TSAN(uint32_t, WRITE, core_reserve,
              (gerfmuod_core *core, uint32_t steps, uint32_t tasks, uint32_t messages),
              (core, steps, tasks, messages))
GERFMUOD_TSAN(gerfmuod_settled, WRITE, core_settle, (gerfmuod_core *core), (core))
GERFMUOD_TSAN(gerfmuod_step_result, WRITE, core_step,
              (gerfmuod_core *core, uint32_t kind, uint32_t first, uint32_t second, uint32_t third, uint32_t generation),
              (core, kind, first, second, third, generation))
GERFMUOD_TSAN(size_t, WRITE, core_steps,
              (gerfmuod_core *core, const gerfmuod_step *steps, size_t steps_length, gerfmuod_step_result *results,
               size_t results_length),
              (core, steps, steps_length, results, results_length))
GERFMUOD_TSAN(gerfmuod_step_result, WRITE, core_step_by,
              (gerfmuod_core *core, uint32_t maker_kind, uint32_t maker, uint32_t kind, uint32_t first, uint32_t second,
               uint32_t third, uint32_t generation),
              (core, maker_kind, maker, kind, first, second, third, generation))
GERFMUOD_TSAN(gerfmuod_counters, READ, core_counters, (const gerfmuod_core *core, uint32_t node), (core, node))
GERFMUOD_TSAN(gerfmuod_left_task, READ, core_left, (const gerfmuod_core *core, uint32_t from, uint32_t end), (core, from, end))
GERFMUOD_TSAN(gerfmuod_status, READ, core_status, (const gerfmuod_core *core), (core))
GERFMUOD_TSAN(gerfmuod_written, READ, core_trace,
              (const gerfmuod_core *core, char *buffer, size_t buffer_length),
              (core, buffer, buffer_length))

#define gerfmuod_core_open gerfmuod_tsan_core_open
#define gerfmuod_core_open_unrecorded gerfmuod_tsan_core_open_unrecorded
#define gerfmuod_core_close gerfmuod_tsan_core_close
#define gerfmuod_core_restart gerfmuod_tsan_core_restart
#define gerfmuod_core_reserve gerfmuod_tsan_core_reserve
#define gerfmuod_core_settle gerfmuod_tsan_core_settle
#define gerfmuod_core_step gerfmuod_tsan_core_step
#define gerfmuod_core_steps gerfmuod_tsan_core_steps
#define gerfmuod_core_step_by gerfmuod_tsan_core_step_by
#define gerfmuod_core_counters gerfmuod_tsan_core_counters
#define gerfmuod_core_left gerfmuod_tsan_core_left
#define gerfmuod_core_status gerfmuod_tsan_core_status
#define gerfmuod_core_trace gerfmuod_tsan_core_trace
#undef GERFMUOD_TSAN_READ
#undef GERFMUOD_TSAN_WRITE
#endif

#if defined(GERFMUOD_PROCESS_H) && !defined(gerfmuod_process_init)
#define GERFMUOD_TSAN_READ __tsan_read_range((void *)(uintptr_t)process, (long)sizeof *process)
#define GERFMUOD_TSAN_WRITE __tsan_write_range(process, (long)sizeof *process)
GERFMUOD_TSAN(uint32_t, WRITE, process_init,
              (gerfmuod_process *process, uint32_t number, uint32_t processes),
              (process, number, processes))
GERFMUOD_TSAN(uint32_t, WRITE, process_add_work, (gerfmuod_process *process), (process))
GERFMUOD_TSAN(uint32_t, WRITE, process_finish_work, (gerfmuod_process *process), (process))
GERFMUOD_TSAN(uint32_t, WRITE, process_count_sent, (gerfmuod_process *process), (process))
GERFMUOD_TSAN(uint32_t, WRITE, process_count_received, (gerfmuod_process *process, uint64_t epoch), (process, epoch))
GERFMUOD_TSAN(uint32_t, WRITE, process_outgoing_message_start, (gerfmuod_process *process), (process))
GERFMUOD_TSAN(uint32_t, WRITE, process_incoming_message_start, (gerfmuod_process *process, uint64_t epoch), (process, epoch))
GERFMUOD_TSAN(uint32_t, WRITE, process_incoming_message_end, (gerfmuod_process *process), (process))
GERFMUOD_TSAN(uint32_t, WRITE, process_take,
              (gerfmuod_process *process, const gerfmuod_control_message *message),
              (process, message))
GERFMUOD_TSAN(uint32_t, WRITE, process_next, (gerfmuod_process *process, gerfmuod_control_message *message), (process, message))
GERFMUOD_TSAN(uint32_t, WRITE, process_reopen, (gerfmuod_process *process), (process))
GERFMUOD_TSAN(bool, READ, process_is_open, (const gerfmuod_process *process), (process))
GERFMUOD_TSAN(bool, READ, process_knows_end, (const gerfmuod_process *process), (process))
GERFMUOD_TSAN(uint64_t, READ, process_epoch, (const gerfmuod_process *process), (process))
GERFMUOD_TSAN(uint64_t, READ, process_pending, (const gerfmuod_process *process), (process))
GERFMUOD_TSAN(uint64_t, READ, process_sent, (const gerfmuod_process *process), (process))
GERFMUOD_TSAN(uint64_t, READ, process_received, (const gerfmuod_process *process), (process))
GERFMUOD_TSAN(uint64_t, READ, process_wave, (const gerfmuod_process *process), (process))
GERFMUOD_TSAN(const char *, READ, process_text, (const gerfmuod_process *process), (process))
#undef GERFMUOD_TSAN_READ
#undef GERFMUOD_TSAN_WRITE
#define GERFMUOD_TSAN_READ __tsan_read_range((void *)(uintptr_t)tasks, (long)sizeof *tasks)
#define GERFMUOD_TSAN_WRITE __tsan_write_range(tasks, (long)sizeof *tasks)
#define GERFMUOD_TSAN_PROCESS __tsan_write_range(process, (long)sizeof *process)
#define GERFMUOD_TSAN_SETTLE (GERFMUOD_TSAN_READ, GERFMUOD_TSAN_PROCESS)
#define GERFMUOD_TSAN_BOTH (GERFMUOD_TSAN_WRITE, GERFMUOD_TSAN_PROCESS)
static inline void gerfmuod_tsan_tasks_open(gerfmuod_tasks *tasks) { GERFMUOD_TSAN_WRITE, gerfmuod_tasks_open(tasks); }
static inline void gerfmuod_tsan_tasks_drop_waiting(gerfmuod_tasks *tasks) { GERFMUOD_TSAN_WRITE, gerfmuod_tasks_drop_waiting(tasks); }
GERFMUOD_TSAN(uint32_t, WRITE, tasks_add, (gerfmuod_tasks *tasks), (tasks))
GERFMUOD_TSAN(uint32_t, WRITE, tasks_add_due, (gerfmuod_tasks *tasks), (tasks))
GERFMUOD_TSAN(uint32_t, WRITE, tasks_begin, (gerfmuod_tasks *tasks), (tasks))
GERFMUOD_TSAN(uint32_t, WRITE, tasks_done, (gerfmuod_tasks *tasks), (tasks))
GERFMUOD_TSAN(uint32_t, WRITE, tasks_give, (gerfmuod_tasks *tasks), (tasks))
GERFMUOD_TSAN(uint32_t, WRITE, tasks_close, (gerfmuod_tasks *tasks), (tasks))
GERFMUOD_TSAN(uint32_t, BOTH, tasks_send, (gerfmuod_tasks *tasks, gerfmuod_process *process), (tasks, process))
GERFMUOD_TSAN(uint32_t, BOTH, tasks_receive,
              (gerfmuod_tasks *tasks, gerfmuod_process *process, uint64_t epoch),
              (tasks, process, epoch))
GERFMUOD_TSAN(uint32_t, SETTLE, tasks_settle, (const gerfmuod_tasks *tasks, gerfmuod_process *process), (tasks, process))
GERFMUOD_TSAN(uint32_t, BOTH, tasks_reopen, (gerfmuod_tasks *tasks, gerfmuod_process *process), (tasks, process))
GERFMUOD_TSAN(uint64_t, READ, tasks_waiting, (const gerfmuod_tasks *tasks), (tasks))
GERFMUOD_TSAN(uint64_t, READ, tasks_running, (const gerfmuod_tasks *tasks), (tasks))
GERFMUOD_TSAN(uint64_t, READ, tasks_due, (const gerfmuod_tasks *tasks), (tasks))
GERFMUOD_TSAN(bool, READ, tasks_is_opening, (const gerfmuod_tasks *tasks), (tasks))
GERFMUOD_TSAN(bool, READ, tasks_is_idle, (const gerfmuod_tasks *tasks), (tasks))

#define gerfmuod_process_init gerfmuod_tsan_process_init
#define gerfmuod_process_add_work gerfmuod_tsan_process_add_work
#define gerfmuod_process_finish_work gerfmuod_tsan_process_finish_work
#define gerfmuod_process_count_sent gerfmuod_tsan_process_count_sent
#define gerfmuod_process_count_received gerfmuod_tsan_process_count_received
#define gerfmuod_process_outgoing_message_start gerfmuod_tsan_process_outgoing_message_start
#define gerfmuod_process_incoming_message_start gerfmuod_tsan_process_incoming_message_start
#define gerfmuod_process_incoming_message_end gerfmuod_tsan_process_incoming_message_end
#define gerfmuod_process_take gerfmuod_tsan_process_take
#define gerfmuod_process_next gerfmuod_tsan_process_next
#define gerfmuod_process_reopen gerfmuod_tsan_process_reopen
#define gerfmuod_process_is_open gerfmuod_tsan_process_is_open
#define gerfmuod_process_knows_end gerfmuod_tsan_process_knows_end
#define gerfmuod_process_epoch gerfmuod_tsan_process_epoch
#define gerfmuod_process_pending gerfmuod_tsan_process_pending
#define gerfmuod_process_sent gerfmuod_tsan_process_sent
#define gerfmuod_process_received gerfmuod_tsan_process_received
#define gerfmuod_process_wave gerfmuod_tsan_process_wave
#define gerfmuod_process_text gerfmuod_tsan_process_text
#define gerfmuod_tasks_open gerfmuod_tsan_tasks_open
#define gerfmuod_tasks_add gerfmuod_tsan_tasks_add
#define gerfmuod_tasks_add_due gerfmuod_tsan_tasks_add_due
#define gerfmuod_tasks_begin gerfmuod_tsan_tasks_begin
#define gerfmuod_tasks_done gerfmuod_tsan_tasks_done
#define gerfmuod_tasks_drop_waiting gerfmuod_tsan_tasks_drop_waiting
#define gerfmuod_tasks_give gerfmuod_tsan_tasks_give
#define gerfmuod_tasks_close gerfmuod_tsan_tasks_close
#define gerfmuod_tasks_send gerfmuod_tsan_tasks_send
#define gerfmuod_tasks_receive gerfmuod_tsan_tasks_receive
#define gerfmuod_tasks_settle gerfmuod_tsan_tasks_settle
#define gerfmuod_tasks_reopen gerfmuod_tsan_tasks_reopen
#define gerfmuod_tasks_waiting gerfmuod_tsan_tasks_waiting
#define gerfmuod_tasks_running gerfmuod_tsan_tasks_running
#define gerfmuod_tasks_due gerfmuod_tsan_tasks_due
#define gerfmuod_tasks_is_opening gerfmuod_tsan_tasks_is_opening
#define gerfmuod_tasks_is_idle gerfmuod_tsan_tasks_is_idle
#undef GERFMUOD_TSAN_READ
#undef GERFMUOD_TSAN_WRITE
#undef GERFMUOD_TSAN_PROCESS
#undef GERFMUOD_TSAN_SETTLE
#undef GERFMUOD_TSAN_BOTH
#endif

#if defined(GERFMUOD_GRAPH_H) && !defined(gerfmuod_graph_link)
#define GERFMUOD_TSAN_READS(array) __tsan_read_range((void *)(uintptr_t)array, (long)(array##_count * sizeof *array))
#define GERFMUOD_TSAN_WRITES(array) __tsan_write_range(array, (long)(array##_count * sizeof *array))
#define GERFMUOD_TSAN_LINK                                                                                        \
    (GERFMUOD_TSAN_READS(offsets), GERFMUOD_TSAN_READS(inputs), GERFMUOD_TSAN_WRITES(missing), GERFMUOD_TSAN_WRITES(newest), \
     GERFMUOD_TSAN_WRITES(older), GERFMUOD_TSAN_WRITES(readers))
#define GERFMUOD_TSAN_WRITE __tsan_write_range(missing, (long)sizeof *missing)
GERFMUOD_TSAN(gerfmuod_graph_result, LINK, graph_link,
              (const uint32_t *offsets, size_t offsets_count, const uint32_t *inputs, size_t inputs_count, uint32_t *missing,
               size_t missing_count, uint32_t *newest, size_t newest_count, uint32_t *older, size_t older_count, uint32_t *readers,
               size_t readers_count),
              (offsets, offsets_count, inputs, inputs_count, missing, missing_count, newest, newest_count, older, older_count, readers,
               readers_count))
GERFMUOD_TSAN(bool, WRITE, graph_arrive, (uint32_t *missing), (missing))

#define gerfmuod_graph_link gerfmuod_tsan_graph_link
#define gerfmuod_graph_arrive gerfmuod_tsan_graph_arrive
#undef GERFMUOD_TSAN_READS
#undef GERFMUOD_TSAN_WRITES
#undef GERFMUOD_TSAN_LINK
#undef GERFMUOD_TSAN_WRITE
#endif

#undef GERFMUOD_TSAN
