/* profiled.h: the option --profile FILE of measured programs: the events of the last run of a team, and a summary of it. */
#ifndef PROFILED_H
#define PROFILED_H
#include <gerfmuod/team.h>
#include "timing.h"
#include <string.h>

enum { SLICES = 1 << 17 };
static const char *profile_path; /* NULL without the option */
static gerfmuod_team *profiled;  /* the last team that ran */

/* Takes the option from the front of the arguments. */
static inline void take_profile_option(int *argc, char ***argv) {
    if (*argc < 3 || strcmp((*argv)[1], "--profile")) return;
    profile_path = (*argv)[2];
    *argc -= 2, *argv += 2;
}

static inline gerfmuod_team *open_team(int is_traced) {
    gerfmuod_team *team;
    need(is_traced ? gerfmuod_team_open_traced(&team) : gerfmuod_team_open(&team), "open");
    if (profile_path) need(gerfmuod_team_record(team, SLICES), "record");
    return team;
}

/* Closes a team that has run, or keeps it instead of the one before. */
static inline void close_team(gerfmuod_team *team) {
    gerfmuod_team_close(profile_path ? profiled : team);
    if (profile_path) profiled = team;
}

/* Writes the file, and the summary to standard error. */
static inline void write_profile(void) {
    if (!profiled) return;
    FILE *file = fopen(profile_path, "w");
    need(!file, profile_path);
    need(gerfmuod_team_profile(profiled, file), profile_path);
    need(fclose(file) != 0, profile_path);
    need(gerfmuod_team_summary(profiled, stderr), "summary");
    gerfmuod_team_close(profiled);
}
#endif
