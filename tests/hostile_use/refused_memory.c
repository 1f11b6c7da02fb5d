/* Loaded before the C library: refuses the allocation whose number REFUSED_ALLOCATION names, counted from 1, and with
   REFUSED_LATER all behind it too. At the first one it says so on standard error. */
#include <stdlib.h>
#include <unistd.h>

extern void *__libc_malloc(size_t size);
extern void *__libc_realloc(void *old, size_t size);

static long count;

static int is_refused(void) {
    const char *text = getenv("REFUSED_ALLOCATION");
    long number = text == NULL ? 0 : atol(text);
    count++;
    if (number == 0 || count < number) return 0;
    if (count == number && write(2, "refused\n", 8) != 8) abort();
    return count == number || getenv("REFUSED_LATER") != NULL;
}

void *malloc(size_t size) { return is_refused() ? NULL : __libc_malloc(size); }

void *realloc(void *old, size_t size) { return is_refused() ? NULL : __libc_realloc(old, size); }
