/* Tells the library so many steps at eight nodes and prints the numbers that the nodes then have:
 * `library_steps tasks N` or `library_steps messages N`. A task has three steps, and so has a message. */
#include <gerfmuod/core.h>

#include <stdio.h>
#include <stdlib.h>
#include <string.h>

static unsigned long take_tasks(gerfmuod_core *core, uint32_t count) {
    unsigned long refused = 0;
    for (uint32_t task = 0; task < count; task++) {
        refused += gerfmuod_core_insert(core, task % 8, task, 0).refused != 0;
        refused += gerfmuod_core_begin(core, task).refused != 0;
        refused += gerfmuod_core_done(core, task).refused != 0;
    }
    return refused;
}

static unsigned long take_messages(gerfmuod_core *core, uint32_t count) {
    unsigned long refused = 0;
    for (uint32_t message = 0; message < count; message++) {
        uint32_t to = (message + 1) % 8;
        refused += gerfmuod_core_send(core, message % 8, to, message, GERFMUOD_FIRST_GENERATION).refused != 0;
        refused += gerfmuod_core_receive(core, to, message, GERFMUOD_FIRST_GENERATION).refused != 0;
        refused += gerfmuod_core_message_end(core, to, message, GERFMUOD_FIRST_GENERATION).refused != 0;
    }
    return refused;
}

int main(int count, char **words) {
    gerfmuod_core core;
    if (count < 3 || gerfmuod_core_open(&core, 8)) return 1;
    uint32_t rounds = (uint32_t)strtoul(words[2], NULL, 10) / 3;
    unsigned long refused = strcmp(words[1], "tasks") == 0 ? take_tasks(&core, rounds) : take_messages(&core, rounds);
    printf("refused %lu steps %u\n", refused, gerfmuod_core_status(&core).steps);
    for (uint32_t node = 0; node < 8; node++) {
        gerfmuod_counters it = gerfmuod_core_counters(&core, node);
        printf("node %u pending %u sent %u received %u\n", node, it.pending, it.sent, it.received);
    }
    gerfmuod_core_close(&core);
    return 0;
}
