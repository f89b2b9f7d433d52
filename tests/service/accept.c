/* Preloaded into a server: its first calls of accept fail, with the error numbers of ERRORS, which stand after one
 * another with a space between them. The system is asked from then on. */
#define _GNU_SOURCE
#include <errno.h>
#include <stdlib.h>
#include <sys/socket.h>
#include <sys/syscall.h>
#include <unistd.h>

static const char *left;

__attribute__((constructor)) static void begin(void) { left = getenv("ERRORS"); }

int accept4(int file, struct sockaddr *address, socklen_t *size, int flags) {
    char *behind = 0;
    long number = left ? strtol(left, &behind, 10) : 0;
    if (!number)
        return (int)syscall(SYS_accept4, file, address, size, flags);
    left = behind;
    errno = (int)number;
    return -1;
}
