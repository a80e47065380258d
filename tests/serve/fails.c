// An fdatasync that fails once: the call whose number, counted from 1, FAILED_SYNC says, with the error that SYNC_ERROR says.
#define _GNU_SOURCE
#include <errno.h>
#include <stdatomic.h>
#include <stdlib.h>
#include <sys/syscall.h>
#include <unistd.h>

static atomic_long made;

int fdatasync(int file) {
    const char *number = getenv("FAILED_SYNC"), *error = getenv("SYNC_ERROR");
    if (number && error && ++made == atol(number)) {
        errno = atoi(error);
        return -1;
    }
    return (int)syscall(SYS_fdatasync, file);
}
