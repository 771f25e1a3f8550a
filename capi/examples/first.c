/* first.c: the graph of docs/YOUR-BODIES.md: two tasks, and a third one that waits for both.
 *
 *   cc -Icapi/include capi/examples/first.c -Llib -lgerfmuod -pthread -lm -o first && ./first
 */
#include <gerfmuod/team.h>
#include <math.h>
#include <stdio.h>

static double x, y, z;

static int body(void *context, uint32_t task) {
    (void)context;
    if (task == 0) x = sqrt(2);
    if (task == 1) y = exp(1);
    if (task == 2) z = x * y;
    return 0;
}

int main(void) {
    /* task t waits for inputs[offsets[t]] to inputs[offsets[t + 1] - 1] */
    static const uint32_t offsets[] = {0, 0, 0, 2}, inputs[] = {0, 1};
    gerfmuod_team *team;
    uint32_t refused = gerfmuod_team_open(&team);
    if (!refused) refused = gerfmuod_team_describe(team, 3, NULL, offsets, inputs, NULL);
    if (!refused) refused = gerfmuod_team_run(team, 4, body, NULL);
    if (refused) fprintf(stderr, "%s\n", gerfmuod_refusal_text(refused));
    else printf("%.6f\n", z); /* 3.844231 */
    gerfmuod_team_close(team);
    return refused != 0;
}
