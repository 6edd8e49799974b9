// Stands before the C library's malloc, calloc and realloc, and refuses the Nth request.
//
// Requests are counted from each odd mark to the next: marks are requests of just MARK bytes. REFUSE says which
// is refused, counted from 1, and COUNTED names the file that says in the end how many there were.

#include <fcntl.h>
#include <stdio.h>
#include <stdlib.h>
#include <string.h>
#include <unistd.h>

#define MARK 1234577

extern void *__libc_malloc(size_t size);
extern void *__libc_calloc(size_t count, size_t size);
extern void *__libc_realloc(void *at, size_t size);

static unsigned long refused;
static unsigned long counted;
static int marks;

__attribute__((constructor)) static void begin(void) {
    const char *text = getenv("REFUSE");
    refused = text ? strtoul(text, NULL, 10) : 0;
}

// Whether this request is granted.
static int is_granted(size_t size) {
    if (size == MARK) {
        marks++;
        return 1;
    }
    return marks % 2 == 0 || ++counted != refused;
}

void *malloc(size_t size) {
    return is_granted(size) ? __libc_malloc(size) : NULL;
}

void *calloc(size_t count, size_t size) {
    return is_granted(count * size) ? __libc_calloc(count, size) : NULL;
}

void *realloc(void *at, size_t size) {
    return is_granted(size) ? __libc_realloc(at, size) : NULL;
}

__attribute__((destructor)) static void end(void) {
    const char *name = getenv("COUNTED");
    char text[32];
    int file = name ? open(name, O_WRONLY | O_CREAT | O_TRUNC, 0600) : -1;
    if (file < 0 || marks == 0 || marks % 2 != 0) {
        return;
    }
    int length = snprintf(text, sizeof text, "%lu\n", counted);
    if (write(file, text, (size_t)length) != length) {
        abort();
    }
    close(file);
}
