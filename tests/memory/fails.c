// A malloc and a realloc that refuse one allocation: the one whose number, counted from 0, REFUSED says. A refusal leaves an
// empty file at the path that TOLD says.
#include <fcntl.h>
#include <stddef.h>
#include <stdlib.h>
#include <unistd.h>

extern void *__libc_malloc(size_t size);
extern void *__libc_realloc(void *old, size_t size);

static long made;

static int refuses(void) {
    const char *number = getenv("REFUSED");
    if (!number || made++ != atol(number)) return 0;
    close(open(getenv("TOLD"), O_CREAT | O_WRONLY, 0600));
    return 1;
}

void *malloc(size_t size) { return refuses() ? NULL : __libc_malloc(size); }

void *realloc(void *old, size_t size) { return refuses() ? NULL : __libc_realloc(old, size); }
