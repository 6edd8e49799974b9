// The three functions by which the library asks for memory, over those of the C library. tools/archive.sh compiles it for each
// target. It includes nothing, so that its bytes depend on the compiler alone.
//
// What is proved of the library rests on these contracts. A block has `size` bytes, begins at a multiple of `align`, which
// divides 16, and may be freed or resized. The pointer is one into a block in any case, so where a request is refused it is that
// of a byte of this file. A block of no bytes has an address of its own, for which some C libraries need a size.
typedef __SIZE_TYPE__ size;

void *malloc(size bytes);
void *realloc(void *at, size bytes);
void free(void *at);

// Whether there is room, and where.
struct tried {
    size is_granted;
    void *at;
};

static char nowhere;

static struct tried tried(void *at) {
    return (struct tried){at != 0, at == 0 ? &nowhere : at};
}

struct tried rattle_alloc(size bytes, size align) {
    return tried(malloc(bytes == 0 ? align : bytes));
}

// The first `kept` bytes stay as they are; realloc knows of them by itself. Where it is refused, the block stays.
struct tried rattle_realloc(void *at, size kept, size bytes, size align) {
    (void)kept;
    return tried(realloc(at, bytes == 0 ? align : bytes));
}

void rattle_dealloc(void *at) {
    free(at);
}
