/* version.c: prints the version of an installed library; fails if it is not that of the headers. */
#include <gerfmuod.h>
#include <stdio.h>

int main(void) {
    printf("version %u\n", (unsigned)gerfmuod_version());
    return gerfmuod_version() != GERFMUOD_VERSION;
}
