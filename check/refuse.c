/* Refuses one allocation of a program: the one of the number in REFUSE, counted from 1. With TELL set it
   says at the end, on standard error, if there were fewer. */
#include <stdlib.h>
#include <unistd.h>

void *__libc_malloc(size_t);
void *__libc_realloc(void *, size_t);

static long calls, wanted = -1;

static int is_refused(void) {
    if (wanted < 0) {
        const char *number = getenv("REFUSE");
        wanted = number ? atol(number) : 0;
    }
    return ++calls == wanted;
}

void *malloc(size_t size) { return is_refused() ? 0 : __libc_malloc(size); }

void *realloc(void *old, size_t size) { return is_refused() ? 0 : __libc_realloc(old, size); }

__attribute__((destructor)) static void end(void) {
    static const char fewer[] = "fewer allocations\n";
    if (getenv("TELL") && calls < wanted && write(2, fewer, sizeof fewer - 1) < 0) {
        _exit(1);
    }
}
