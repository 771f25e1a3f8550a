/* places.c: where the program makes a call: from a return address to a file and a line, or to a function and an offset. */
#define _GNU_SOURCE
#include "check.h"
#include <dlfcn.h>
#include <link.h>
#include <stdio.h>
#include <stdlib.h>
#include <string.h>
#include <unistd.h>
#include <unwind.h>

enum { KNOWN = 16 };

struct walk {
    int is_inside; /* the frames of the Fortran binding have begun */
    const void *found;
};

static _Unwind_Reason_Code walk_frame(struct _Unwind_Context *context, void *data) {
    struct walk *walk = data;
    const void *address = (const void *)(uintptr_t)_Unwind_GetIP(context);
    if (fortran_is_binding(address)) {
        walk->is_inside = 1;
    } else if (walk->is_inside) {
        walk->found = address;
        return _URC_END_OF_STACK;
    }
    return _URC_NO_REASON;
}

/* A call from Fortran comes through a library of MPI, whose caller is the program. */
const void *caller_of(const void *address) {
    struct walk walk = {0, NULL};
    if (!fortran_is_binding(address)) return address;
    _Unwind_Backtrace(walk_frame, &walk);
    return walk.found ? walk.found : address;
}

static const char *base_name(const char *path) {
    const char *slash = strrchr(path, '/');
    return slash ? slash + 1 : path;
}

static void strip(char *line) { line[strcspn(line, "\n")] = 0; }

/* Asks addr2line for the function and the line of the call, which is before its return address. */
static int ask_addr2line(const char *file, uintptr_t address, char *room, size_t size) {
    char command[1024], function[256] = "", line[512] = "";
    FILE *pipe;
    int length = snprintf(command, sizeof command, "addr2line -f -e '%s' 0x%zx 2>/dev/null", file, (size_t)address - 1);
    if (length < 0 || (size_t)length >= sizeof command || strchr(file, '\'')) return 0;
    unsetenv("LD_PRELOAD"); /* addr2line needs no MPI */
    pipe = popen(command, "r");
    if (!pipe) return 0;
    if (!fgets(function, sizeof function, pipe) || !fgets(line, sizeof line, pipe)) function[0] = 0;
    while (fgets(command, sizeof command, pipe)) {}
    pclose(pipe);
    strip(function);
    line[strcspn(line, " \n")] = 0; /* a discriminator may follow */
    if (!function[0] || function[0] == '?') return 0;
    if (line[0] == '?') snprintf(room, size, "%s in %s", function, base_name(file));
    else snprintf(room, size, "%s in %s", base_name(line), function);
    return 1;
}

static const char *own_path(void) {
    static char path[512];
    ssize_t length = readlink("/proc/self/exe", path, sizeof path - 1);
    path[length > 0 ? length : 0] = 0;
    return path;
}

static void find_place(const void *address, char *room, size_t size) {
    Dl_info about;
    struct link_map *map = NULL;
    uintptr_t offset;
    snprintf(room, size, "%p", address);
    if (!address || !dladdr1(address, &about, (void **)&map, RTLD_DL_LINKMAP) || !about.dli_fname) return;
    offset = (uintptr_t)address - (map ? map->l_addr : (uintptr_t)about.dli_fbase);
    if (ask_addr2line(map && !map->l_name[0] ? own_path() : about.dli_fname, offset, room, size)) return;
    snprintf(room, size, "%s+0x%zx%s%s", base_name(about.dli_fname), (size_t)offset, about.dli_sname ? " in " : "",
             about.dli_sname ? about.dli_sname : "");
}

/* The same place is asked for several times: for the table, and for the file in JSON. */
void place_text(const void *address, char *room, size_t size) {
    static struct {
        const void *address;
        char text[PLACE_SIZE];
    } known[KNOWN];
    static unsigned count;
    unsigned n = 0, used = count < KNOWN ? count : KNOWN;
    while (n < used && known[n].address != address) n++;
    if (n == used) {
        n = count++ % KNOWN;
        known[n].address = address;
        find_place(address, known[n].text, PLACE_SIZE);
    }
    snprintf(room, size, "%s", known[n].text);
}
