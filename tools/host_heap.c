// The three functions that the library asks for memory, in place of the archive's: a host may link its own. Each request is
// counted, and at the end of the program none is held.
#include <stdio.h>
#include <stdlib.h>

// Whether there is room, and where.
struct had {
    size_t is_had;
    void *at;
};

static size_t requests, held;

// The pointer is into a block of the program even where there is no room.
static struct had counted(void *at) {
    static char nowhere;
    requests++;
    return (struct had){at != NULL, at != NULL ? at : &nowhere};
}

struct had rattle_alloc(size_t size, size_t align) {
    held++;
    return counted(malloc(size == 0 ? align : size));
}

struct had rattle_realloc(void *at, size_t old, size_t size, size_t align) {
    (void)old;
    return counted(realloc(at, size == 0 ? align : size));
}

void rattle_dealloc(void *at) {
    held--;
    free(at);
}

__attribute__((destructor)) static void tell(void) {
    if (requests == 0 || held != 0)
        abort();
    fprintf(stderr, "%zu requests met by the host's own heap\n", requests);
}
