// Plays the logs of a file, one after the other, each on a session of its own, and compares each answer and each byte that is
// written with those of the log. It ends at the first that differs, prints both, and fails.
//
// The library gets no more than the contracts say: memory at the least alignment, slices at odd addresses, buffers that end
// at a page which nobody may touch, and P2P_SESSION_STACK bytes of stack, of which it says how many were written. A buffer in
// which no answer is stays as it was.
//
// usage: player [--refuse] FILE [ANSWERS]
//
// With --refuse each request for memory is refused in turn: a call that answers want of memory is made again, and then the next
// request is refused, until the answer is another one. That has to be the one of the log. ANSWERS gets the logs with the
// answers that were got.
#define _GNU_SOURCE
#include "log.h"

#include <sys/mman.h>
#include <ucontext.h>
#include <unistd.h>

enum { ROOM = 512 << 20, PAINTED = 256, PAINT = 0xa5, MOST_SLICE = 16 << 20 };

struct pair {
    size_t key, signature;
    size_t (*size)(void);
    void (*new)(void *at);
    void (*free)(void *at);
    call_of *call;
    // The export for calls with one slice at most and no buffer, if there is one.
    peer_call_of *call_peer;
};

// The exports of a pair take the type of its sessions.
#define PAIR(prefix, key, signature) \
    static void prefix##_new_at(void *at) { prefix##_new(at); } \
    static void prefix##_free_at(void *at) { prefix##_free(at); } \
    static uint64_t prefix##_call_at(void *at, uint64_t number, const uint64_t *numbers, size_t numbers_length, \
        const uint8_t *first, size_t first_length, const uint8_t *second, size_t second_length, const uint8_t *third, \
        size_t third_length, uint8_t *out, size_t out_length) { \
        return prefix##_call(at, number, numbers, numbers_length, first, first_length, second, second_length, third, \
            third_length, out, out_length); \
    } \
    PEER_CALL(prefix)
#ifdef CALL_PEER
#define PEER_CALL(prefix) \
    static uint64_t prefix##_call_peer_at(void *at, uint64_t number, const uint64_t *numbers, size_t numbers_length, \
        const uint8_t *peer, size_t peer_length) { \
        return prefix##_call_peer(at, number, numbers, numbers_length, peer, peer_length); \
    }
#define PEER_CALL_AT(prefix) prefix##_call_peer_at
#else
#define PEER_CALL(prefix)
#define PEER_CALL_AT(prefix) NULL
#endif
#include "pairs.h"
#undef PAIR

static const struct pair pairs[] = {
#define PAIR(prefix, key, signature) \
    {key, signature, prefix##_size, prefix##_new_at, prefix##_free_at, prefix##_call_at, PEER_CALL_AT(prefix)},
#include "pairs.h"
#undef PAIR
};

// What was asked of the heap, which refuses the request of this number.
static struct {
    uint64_t requests, refused_at, refused;
    int64_t held;
} heap;

struct tried {
    size_t is_granted;
    void *at;
};

static bool is_granted(void) {
    bool is_refused = ++heap.requests == heap.refused_at;
    heap.refused += is_refused;
    return !is_refused;
}

// How far a block of this alignment begins behind one of malloc: at an odd multiple, so at no more than is asked for.
static size_t before(size_t align) {
    return 16 + (align < 16 ? align : 0);
}

static struct tried block(uint8_t *from, size_t align) {
    static uint8_t nowhere;
    if (from == NULL)
        return (struct tried){0, &nowhere};
    from[before(align) - 1] = (uint8_t)before(align);
    return (struct tried){1, from + before(align)};
}

struct tried rattle_alloc(size_t size, size_t align) {
    uint8_t *from = is_granted() ? malloc(before(align) + size) : NULL;
    heap.held += from != NULL;
    return block(from, align);
}

struct tried rattle_realloc(uint8_t *at, size_t kept, size_t size, size_t align) {
    (void)kept;
    return block(is_granted() ? realloc(at - at[-1], before(align) + size) : NULL, align);
}

void rattle_dealloc(uint8_t *at) {
    heap.held--;
    free(at - at[-1]);
}

// What is read of a file, and where.
static struct {
    struct text file;
    size_t at;
} log_;

static struct text answers;
static bool refuses, writes;
static uint64_t logs, calls, not_made;
static uint8_t *buffer_end;

static _Noreturn void fail(const char *why) {
    fprintf(stderr, "log %llu, at byte %zu: %s\n", (unsigned long long)logs, log_.at, why);
    _exit(2);
}

static const uint8_t *take(size_t length) {
    if (log_.file.length - log_.at < length)
        fail("it is cut off");
    log_.at += length;
    return log_.file.at + log_.at - length;
}

static uint64_t take_number(size_t size) {
    uint64_t number = 0;
    for (const uint8_t *at = take(size), *end = at + size; at < end; at++)
        number = number << 8 | *at;
    return number;
}

// A call of a log.
struct record {
    uint8_t number;
    uint64_t numbers[MOST_NUMBERS];
    struct bytes slices[MOST_SLICES];
    size_t room;
    uint64_t answer;
    struct bytes written;
};

static struct bytes take_slice(bool is_first, struct bytes last) {
    static uint8_t message[MOST_SLICE];
    uint64_t length = take_number(4);
    if (length == REPEATED && is_first)
        return last;
    if (length != SHORTENED)
        return (struct bytes){take(length), length};
    length = take_number(8);
    if (length > MOST_SLICE)
        fail("a message is too long");
    memset(message, 0, length);
    memcpy(message, take(MESSAGE_HEAD), MESSAGE_HEAD);
    (void)take(4);
    return (struct bytes){message, length};
}

static void take_arguments(struct record *record, struct bytes *last) {
    size_t numbers = 0, slices = 0;
    record->room = 0;
    memset(record->slices, 0, sizeof record->slices);
    for (const char *kind = forms[record->number]; *kind != 0; kind++) {
        if (*kind == 'n')
            record->numbers[numbers++] = take_number(8);
        else if (*kind == 'o')
            record->room = take_number(8);
        else
            record->slices[slices] = take_slice(slices == 0, *last), slices++;
    }
    if (slices > 0)
        *last = record->slices[0];
    if (record->room > ROOM)
        fail("a buffer is too long");
}

// Takes the next call, or returns false at the last record, whose count and checksum are looked at.
static bool take_record(struct record *record, size_t begun, uint64_t records, struct bytes *last) {
    size_t before_it = log_.at;
    size_t length = take_number(4);
    size_t end = log_.at + length;
    record->number = (uint8_t)take_number(1);
    if (record->number == WHOLE) {
        if (take_number(8) != records || take_number(4) != checksum(log_.file.at + begun, before_it - begun))
            fail("it is damaged");
        return false;
    }
    if (record->number == NO_CALL || record->number >= CALLS)
        fail("there is no such call");
    take_arguments(record, last);
    record->answer = take_number(8);
    if (log_.at > end)
        fail("a record is too long");
    record->written = (struct bytes){log_.file.at + log_.at, end - log_.at};
    (void)take(end - log_.at);
    return true;
}

static void print_answer(const char *whose, uint64_t answer, struct bytes bytes) {
    fprintf(stderr, "%s: %llx, ", whose, (unsigned long long)answer);
    for (size_t i = 0; i < bytes.length; i++)
        fprintf(stderr, "%02x", bytes.at[i]);
    fprintf(stderr, "\n");
}

// A copy that begins at an odd address.
static uint8_t *copied(struct bytes slice, uint8_t **from) {
    *from = malloc(slice.length + 16);
    if (*from == NULL)
        fail("no memory");
    uint8_t *at = *from + (calls * 2 + 1) % 16;
    if (slice.length > 0)
        memcpy(at, slice.at, slice.length);
    return at;
}

// Makes a call by either export that takes it, by turns.
static uint64_t request(const struct pair *pair, void *session, const struct record *record, uint8_t *const *slices,
    uint8_t *out) {
    const struct bytes *given = record->slices;
    size_t numbers = count_of(record->number, 'n');
    if (pair->call_peer != NULL && calls % 2 == 0 && count_of(record->number, 'o') == 0 && count_of(record->number, 'b') < 2)
        return pair->call_peer(session, record->number, record->numbers, numbers, slices[0], given[0].length);
    return pair->call(session, record->number, record->numbers, numbers, slices[0], given[0].length, slices[1],
        given[1].length, slices[2], given[2].length, out, record->room);
}

static uint64_t make(const struct pair *pair, void *session, const struct record *record, uint8_t *out) {
    uint8_t *from[MOST_SLICES], *slices[MOST_SLICES];
    for (size_t i = 0; i < MOST_SLICES; i++)
        slices[i] = copied(record->slices[i], &from[i]);
    memset(out, PAINT, record->room < PAINTED ? record->room : PAINTED);
    uint64_t answer = request(pair, session, record, slices, out);
    for (size_t i = 0; i < MOST_SLICES; i++) {
        if (record->slices[i].length > 0 && memcmp(slices[i], record->slices[i].at, record->slices[i].length) != 0)
            fail("an argument is changed");
        free(from[i]);
    }
    if (written(answer, record->room) == 0)
        for (size_t i = 0; i < PAINTED && i < record->room; i++)
            if (out[i] != PAINT)
                fail("something is written in which no answer is");
    return answer;
}

// Makes a call, until it doesn't answer want of memory for a request that was refused.
static void play_record(const struct pair *pair, void *session, const struct record *record) {
    uint8_t *out = buffer_end - record->room;
    uint64_t answer;
    for (uint64_t refused_at = refuses;; refused_at++) {
        uint64_t refused = heap.refused;
        heap.requests = 0;
        heap.refused_at = refused_at;
        answer = make(pair, session, record, out);
        heap.refused_at = 0;
        if (answer != P2P_SESSION_MEMORY || heap.refused == refused)
            break;
    }
    struct bytes got = {out, written(answer, record->room)};
    if (writes)
        append_record(&answers, record->number, record->numbers, record->slices, answer, (struct bytes){out, record->room});
    if (answer == record->answer && got.length == record->written.length && memcmp(got.at, record->written.at, got.length) == 0)
        return;
    fprintf(stderr, "log %llu, call %u with keys of %zu bytes, before byte %zu\n", (unsigned long long)logs, record->number,
        pair->key, log_.at);
    print_answer("in the log", record->answer, record->written);
    print_answer("answered", answer, got);
    _exit(1);
}

static void play_calls(const struct pair *pair, size_t begun) {
    size_t size = pair->size();
    uint8_t *memory = aligned_alloc(32, (size + 63) / 32 * 32);
    if (memory == NULL)
        fail("no memory");
    void *session = memory + P2P_SESSION_ALIGNMENT;
    struct record record;
    struct bytes last = {NULL, 0};
    size_t begun_answers = answers.length;
    uint64_t records = 0;
    pair->new(session);
    if (writes)
        append_head(&answers, pair->key, pair->signature, log_.file.at + log_.at - ARCHIVE);
    for (; take_record(&record, begun, records, &last); records++) {
        // What was refused for want of memory was not made.
        if (record.answer == P2P_SESSION_MEMORY) {
            not_made++;
            if (writes)
                append_record(&answers, record.number, record.numbers, record.slices, record.answer,
                    (struct bytes){NULL, record.room});
            continue;
        }
        play_record(pair, session, &record);
        calls++;
    }
    pair->free(session);
    free(memory);
    if (writes)
        append_last(&answers, begun_answers, records);
    if (heap.held != 0)
        fail("memory is held at the end");
}

static void play(void) {
    while (log_.at < log_.file.length) {
        size_t begun = log_.at;
        const struct pair *pair = pairs;
        if (memcmp(take(5), "P2PL\2", 5) != 0)
            fail("it begins as no log does");
        size_t key = take_number(2), signature = take_number(2);
        while (pair->key != key || pair->signature != signature)
            if (++pair == pairs + sizeof pairs / sizeof *pairs)
                fail("no keys and signatures have these sizes");
        (void)take(ARCHIVE);
        play_calls(pair, begun);
        logs++;
    }
}

static void read_file(const char *name) {
    static uint8_t part[1 << 16];
    FILE *file = fopen(name, "rb");
    size_t length;
    if (file == NULL)
        fail("it can't be read");
    while ((length = fread(part, 1, sizeof part, file)) > 0)
        append(&log_.file, part, length);
    fclose(file);
}

// Memory that ends, or begins, at a page that nobody may touch.
static uint8_t *guarded(size_t size, bool ends) {
    size_t page = (size_t)sysconf(_SC_PAGESIZE);
    uint8_t *at = mmap(NULL, size + page, PROT_READ | PROT_WRITE, MAP_PRIVATE | MAP_ANONYMOUS, -1, 0);
    if (at == MAP_FAILED || mprotect(ends ? at + size : at, page, PROT_NONE) != 0)
        fail("no memory");
    return ends ? at : at + page;
}

// Plays on a stack of its own, and returns how many bytes of it were written.
static size_t play_on_stack(void) {
    static ucontext_t here, there;
    uint8_t *stack = guarded(P2P_SESSION_STACK, false);
    memset(stack, PAINT, P2P_SESSION_STACK);
    getcontext(&there);
    there.uc_stack.ss_sp = stack;
    there.uc_stack.ss_size = P2P_SESSION_STACK;
    there.uc_link = &here;
    makecontext(&there, play, 0);
    swapcontext(&here, &there);
    size_t clean = 0;
    while (clean < P2P_SESSION_STACK && stack[clean] == PAINT)
        clean++;
    return P2P_SESSION_STACK - clean;
}

int main(int count, char **words) {
    refuses = count > 1 && strcmp(words[1], "--refuse") == 0;
    char **names = words + 1 + refuses;
    count -= 1 + refuses;
    if (count != 1 && count != 2) {
        fprintf(stderr, "usage: player [--refuse] FILE [ANSWERS]\n");
        return 2;
    }
    read_file(names[0]);
    writes = count == 2;
    buffer_end = guarded(ROOM, true) + ROOM;
    size_t stack = play_on_stack();
    printf("%llu logs, %llu calls answered as in the log, %llu refused for want of memory there and not made\n",
        (unsigned long long)logs, (unsigned long long)calls, (unsigned long long)not_made);
    printf("%llu requests for memory refused, %zu bytes of stack were written\n", (unsigned long long)heap.refused, stack);
    if (writes) {
        FILE *file = fopen(names[1], "wb");
        if (file == NULL || fwrite(answers.at, 1, answers.length, file) != answers.length || fclose(file) != 0)
            fail("answers can't be written");
    }
    return 0;
}
