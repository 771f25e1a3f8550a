// Words of a command line that are the same for all peers in C++.
#pragma once

#include <cstdlib>
#include <cstring>

// The number behind an option; the other one where it is not there.
inline int option(int count, char **words, const char *name, int otherwise = 1) {
    for (int k = 1; k + 1 < count; k++)
        if (std::strcmp(words[k], name) == 0) return std::atoi(words[k + 1]);
    return otherwise;
}

// Nodes times workers: these programs know threads alone.
inline int threads_of(int count, char **words) { return option(count, words, "--nodes") * option(count, words, "--workers"); }
