/* wrap.h: functions of libraries that a test replaces; link it with -Wl,--wrap=NAME for each. */
#ifndef WRAP_H
#define WRAP_H
#include <stddef.h>

/* Declares the function that a call of NAME reaches, and the original one. */
#define WRAP(result, name, parameters) \
    result __wrap_##name parameters;   \
    result __real_##name parameters
#endif
