// Loaded before a program (LD_PRELOAD), it interrupts each read of standard input, forever.
#define _GNU_SOURCE
#include <errno.h>
#include <sys/syscall.h>
#include <unistd.h>

ssize_t read(int file, void *to, size_t most) {
    if (file == STDIN_FILENO) {
        errno = EINTR;
        return -1;
    }
    return syscall(SYS_read, file, to, most);
}
