/* mock.c MODE: a broken runtime. It reports six tasks in a chain, on one thread, to the tool, and is wrong as MODE says:
 *
 *     ok       nothing is wrong
 *     drop     the last task never begins
 *     early    the fifth task begins before the fourth, whose result it needs
 *     twice    the third task ends twice
 *     again    the third task begins twice
 *     unbegun  the third task ends, and never began
 *     wait     a taskwait ends before the last task
 *     group    a taskgroup ends before the last task
 *     barrier  a barrier ends before the last task
 *     late     a task is made by a thread that has come to the barrier
 *     both     two tasks run at once that exclude each other (mutexinoutset) */
#include <omp-tools.h>
#include <stdbool.h>
#include <stdio.h>
#include <string.h>

enum { TASKS = 6 };
static ompt_callback_t callbacks[64];
static const char *mode;
static ompt_data_t program, initial, parallel, implicit, tasks[TASKS + 1];
static int x;

extern ompt_start_tool_result_t *ompt_start_tool(unsigned, const char *);
static ompt_set_result_t set(ompt_callbacks_t event, ompt_callback_t function) {
    callbacks[event] = function;
    return ompt_set_always;
}
static ompt_interface_fn_t lookup(const char *name) { return strcmp(name, "ompt_set_callback") ? NULL : (ompt_interface_fn_t)set; }
#define SEND(event) ((event##_t)callbacks[event])
static bool is(const char *name) { return !strcmp(mode, name); }

static void create(ompt_data_t *task) {
    ompt_dependence_t clause = {{.ptr = &x}, is("both") ? ompt_dependence_type_mutexinoutset : ompt_dependence_type_inout};
    SEND(ompt_callback_task_create)(&implicit, NULL, task, ompt_task_explicit, 1, (const void *)create);
    SEND(ompt_callback_dependences)(task, &clause, 1);
}
static void begin(ompt_data_t *task) { SEND(ompt_callback_task_schedule)(&implicit, ompt_task_switch, task); }
static void end(ompt_data_t *task) { SEND(ompt_callback_task_schedule)(task, ompt_task_complete, &implicit); }
static void wait(ompt_scope_endpoint_t endpoint) {
    ompt_sync_region_t kind = is("barrier") || is("late") ? ompt_sync_region_barrier_explicit : ompt_sync_region_taskwait;
    if (is("group")) kind = ompt_sync_region_taskgroup;
    SEND(ompt_callback_sync_region)(kind, endpoint, &parallel, &implicit, (const void *)wait);
}

static void run_tasks(void) {
    for (int n = 0; n < TASKS; n++) {
        int k = is("early") && n == 3 ? 4 : is("early") && n == 4 ? 3 : n;
        bool is_left = is("drop") || is("wait") || is("group") || is("barrier");
        if (is_left && n == TASKS - 1) break;
        if (!is("unbegun") || n != 2) begin(&tasks[k]);
        if (is("both") && n == 2) begin(&tasks[3]);
        end(&tasks[k]);
        if (is("twice") && n == 2) end(&tasks[k]);
        if (is("again") && n == 2) begin(&tasks[k]);
    }
}

int main(int count, char **arguments) {
    mode = count > 1 ? arguments[1] : "ok";
    ompt_start_tool_result_t *tool = ompt_start_tool(201811, "mock");
    tool->initialize(lookup, 0, &tool->tool_data);
    SEND(ompt_callback_implicit_task)(ompt_scope_begin, &program, &initial, 1, 1, ompt_task_initial);
    SEND(ompt_callback_parallel_begin)(&initial, NULL, &parallel, 1, ompt_parallel_team, (const void *)run_tasks);
    SEND(ompt_callback_implicit_task)(ompt_scope_begin, &parallel, &implicit, 1, 0, ompt_task_implicit);
    if (is("group")) wait(ompt_scope_begin);
    for (int n = 0; n < TASKS; n++) create(&tasks[n]);
    if (!is("group")) wait(ompt_scope_begin);
    if (is("late")) create(&tasks[TASKS]);
    run_tasks();
    if (!is("drop")) wait(ompt_scope_end);
    SEND(ompt_callback_implicit_task)(ompt_scope_end, NULL, &implicit, 0, 0, ompt_task_implicit);
    SEND(ompt_callback_parallel_end)(&parallel, &initial, ompt_parallel_team, (const void *)run_tasks);
    SEND(ompt_callback_implicit_task)(ompt_scope_end, &program, &initial, 0, 0, ompt_task_initial);
    tool->finalize(&tool->tool_data);
}
