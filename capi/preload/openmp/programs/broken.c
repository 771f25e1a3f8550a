/* broken.c: turns the events of a sound runtime into those of a broken one: a tool that passes them on to the tool named by
 * BROKEN_TOOL, except as BROKEN says, a kind and a number N:
 *
 *     drop:N     the Nth task is never reported to begin or end
 *     twice:N    the Nth task is reported to end twice
 *     early:N    the next task with dependences needs the Nth one, which the runtime does not know, and the Nth does not begin
 *     wait:N     a taskwait of the creator of the Nth task is reported to end when the task is made
 *     group:N    a taskgroup is reported to end then
 *     barrier:N  a thread that comes to a barrier, as the Nth, is reported to leave it at once */
#include <dlfcn.h>
#include <omp-tools.h>
#include <pthread.h>
#include <stdbool.h>
#include <stdio.h>
#include <stdlib.h>
#include <string.h>

static pthread_mutex_t lock = PTHREAD_MUTEX_INITIALIZER;
static ompt_start_tool_result_t *real;
static ompt_function_lookup_t real_lookup;
static ompt_callback_task_create_t create;
static ompt_callback_dependences_t dependences;
static ompt_callback_task_schedule_t schedule;
static ompt_callback_sync_region_t sync_region;
static char kind[16];
static int number, count;
static ompt_data_t *victim;

/* Whether this is the Nth event of its kind. */
static bool is_next(const char *name) {
    pthread_mutex_lock(&lock);
    bool found = !strcmp(kind, name) && ++count == number;
    pthread_mutex_unlock(&lock);
    return found;
}
/* Whether the event after it comes next. */
static bool is_after(const char *name) {
    pthread_mutex_lock(&lock);
    bool found = !strcmp(kind, name) && count == number + 1;
    pthread_mutex_unlock(&lock);
    return found;
}
static bool is_victim(const char *name, const ompt_data_t *data) {
    pthread_mutex_lock(&lock);
    bool found = data && data == victim && !strcmp(kind, name);
    pthread_mutex_unlock(&lock);
    return found;
}
static void choose(ompt_data_t *data) {
    pthread_mutex_lock(&lock);
    victim = data;
    pthread_mutex_unlock(&lock);
}

static void on_create(ompt_data_t *creator, const ompt_frame_t *frame, ompt_data_t *data, int flags, int has_deps, const void *code) {
    create(creator, frame, data, flags, has_deps, code);
    if ((flags & ompt_task_explicit) && (is_next("drop") || is_next("twice"))) choose(data);
    if (is_next("group")) sync_region(ompt_sync_region_taskgroup, ompt_scope_end, NULL, creator, code);
    if (is_next("wait")) sync_region(ompt_sync_region_taskwait, ompt_scope_end, NULL, creator, code);
}
static void on_dependences(ompt_data_t *data, const ompt_dependence_t *list, int length) {
    static char hidden;
    ompt_dependence_t longer[20];
    bool is_first = is_next("early"), is_one = is_first || is_after("early");
    if (is_first) choose(data);
    if (is_one && length < 20) {
        memcpy(longer, list, (size_t)length * sizeof *list);
        longer[length] = (ompt_dependence_t){{.ptr = &hidden}, ompt_dependence_type_inout};
        list = longer, length++;
    }
    dependences(data, list, length);
}
static void on_schedule(ompt_data_t *before, ompt_task_status_t status, ompt_data_t *after) {
    if (is_victim("drop", before) || is_victim("drop", after) || is_victim("early", before) || is_victim("early", after)) return;
    bool is_twice = status == ompt_task_complete && is_victim("twice", before);
    ompt_data_t copy = before ? *before : (ompt_data_t){0};
    schedule(before, status, after);
    if (!is_twice) return;
    choose(NULL);
    schedule(&copy, status, after);
}
static void on_sync(ompt_sync_region_t region, ompt_scope_endpoint_t end, ompt_data_t *parallel, ompt_data_t *data, const void *code) {
    sync_region(region, end, parallel, data, code);
    bool is_other = region == ompt_sync_region_taskwait || region == ompt_sync_region_taskgroup || region == ompt_sync_region_reduction;
    if (end == ompt_scope_begin && !is_other && is_next("barrier")) sync_region(region, ompt_scope_end, parallel, data, code);
}

static ompt_set_result_t set(ompt_callbacks_t event, ompt_callback_t function) {
    switch (event) {
    case ompt_callback_task_create: create = (ompt_callback_task_create_t)function, function = (ompt_callback_t)on_create; break;
    case ompt_callback_dependences: dependences = (ompt_callback_dependences_t)function, function = (ompt_callback_t)on_dependences; break;
    case ompt_callback_task_schedule: schedule = (ompt_callback_task_schedule_t)function, function = (ompt_callback_t)on_schedule; break;
    case ompt_callback_sync_region: sync_region = (ompt_callback_sync_region_t)function, function = (ompt_callback_t)on_sync; break;
    default: break;
    }
    return ((ompt_set_callback_t)real_lookup("ompt_set_callback"))(event, function);
}
static ompt_interface_fn_t lookup(const char *name) {
    return strcmp(name, "ompt_set_callback") ? real_lookup(name) : (ompt_interface_fn_t)set;
}
static int initialize(ompt_function_lookup_t own, int device, ompt_data_t *data) {
    real_lookup = own;
    return real->initialize(lookup, device, data);
}
static void finalize(ompt_data_t *data) { real->finalize(data); }

__attribute__((visibility("default"))) ompt_start_tool_result_t *ompt_start_tool(unsigned version, const char *runtime) {
    static ompt_start_tool_result_t result = {initialize, finalize, {0}};
    const char *tool = getenv("BROKEN_TOOL"), *how = getenv("BROKEN");
    void *library = tool ? dlopen(tool, RTLD_NOW | RTLD_LOCAL) : NULL;
    if (!library || !how || sscanf(how, "%15[a-z]:%d", kind, &number) != 2) {
        fprintf(stderr, "broken: BROKEN_TOOL or BROKEN is wrong\n");
        return NULL;
    }
    ompt_start_tool_result_t *(*start)(unsigned, const char *);
    *(void **)&start = dlsym(library, "ompt_start_tool");
    real = start(version, runtime);
    return real ? &result : NULL;
}
