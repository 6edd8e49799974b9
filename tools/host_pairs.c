// Has a node of each pair of sizes at once, whose calls are made by turns. Each tracks one peer more than the one before.
//
// tools/host_c.sh writes headers.h, which includes the header of each pair, and pairs.h from tools/exports/session.table: for
// each pair PAIR(what its calls begin with, what its constants begin with, the first byte of its keys).
#include "headers.h"

#include <inttypes.h>
#include <stdio.h>
#include <stdlib.h>
#include <string.h>

enum { PEERS = 100, INGRESS = 8 };

// Ends the program where a call answers something else.
static void expect(const char *call, uint64_t answer, uint64_t expected) {
    if (answer == expected)
        return;
    fprintf(stderr, "%s answers %" PRIu64 ", not %" PRIu64 "\n", call, answer, expected);
    exit(1);
}

static void *make_room(size_t size) {
    size += (P2P_SESSION_ALIGNMENT - size % P2P_SESSION_ALIGNMENT) % P2P_SESSION_ALIGNMENT;
    void *room = aligned_alloc(P2P_SESSION_ALIGNMENT, size);
    if (room == NULL)
        exit(3);
    return room;
}

static void spell_key(uint8_t *key, size_t size, uint8_t first, uint8_t number) {
    memset(key, number, size);
    key[0] = first;
}

// The info of a key that no peer has, at 1.2.3.4:8000.
static void spell_info(uint8_t *info, size_t length, size_t key_size, uint8_t first) {
    const uint8_t ingress[INGRESS] = {0, 4, 1, 2, 3, 4, 0x1f, 0x40};
    memset(info, 0, length);
    memcpy(info, ingress, INGRESS);
    spell_key(info + INGRESS + 1, key_size, first, 255);
}

#define PAIR(call, NAME, FIRST) \
    static struct call *call##_node(void) { \
        uint8_t info[INGRESS + 1 + NAME##_KEY_SIZE + NAME##_SIGNATURE_SIZE]; \
        spell_info(info, sizeof info, NAME##_KEY_SIZE, FIRST); \
        struct call *session = (struct call *)make_room(call##_size()); \
        call##_new(session); \
        uint64_t made = call##_init(session, true, true, 1, 1, 10, 0, 60, 0, 1024, 256, 4096, 256, 30, 0, NULL, 0, \
            NULL, 0, info, sizeof info); \
        expect("init", made, 1); \
        return session; \
    } \
    static void call##_meet(struct call *session, uint8_t count) { \
        uint8_t keys[PEERS * NAME##_KEY_SIZE]; \
        for (uint8_t i = 0; i < count; i++) \
            spell_key(keys + i * NAME##_KEY_SIZE, NAME##_KEY_SIZE, FIRST, i); \
        uint64_t length = (uint64_t)count * NAME##_KEY_SIZE; \
        expect("track", call##_track(session, count, keys, length, NULL, 0, NULL, 0), 0); \
        for (uint8_t i = 0; i < count; i++) \
            expect("listen", call##_listen(session, keys + i * NAME##_KEY_SIZE, NAME##_KEY_SIZE, 100, 0, 0, 0), 1); \
    } \
    static void call##_end(struct call *session, uint8_t count) { \
        uint8_t all[8 + PEERS * NAME##_KEY_SIZE]; \
        expect("tracked", call##_tracked(session), count); \
        expect("all", call##_all(session, all, sizeof all), 8 + (uint64_t)count * NAME##_KEY_SIZE); \
        call##_free(session); \
        free(session); \
    }
#include "pairs.h"
#undef PAIR

// Each refusal has a text, and no other number.
static void look_at_texts(void) {
    uint64_t answer = UINT64_MAX;
    while (P2P_SESSION_IS_REFUSAL(answer))
        if (p2p_session_refusal_text(answer--) == NULL)
            exit(1);
    expect("refusals", answer, P2P_SESSION_BAD_CALL - 1);
    if (p2p_session_refusal_text(answer) != NULL)
        exit(1);
}

int main(void) {
    look_at_texts();
    uint8_t count = 0;
#define PAIR(call, NAME, FIRST) struct call *call##_at = call##_node();
#include "pairs.h"
#undef PAIR
#define PAIR(call, NAME, FIRST) call##_meet(call##_at, ++count);
#include "pairs.h"
#undef PAIR
    uint8_t pairs = count;
    count = 0;
#define PAIR(call, NAME, FIRST) call##_end(call##_at, ++count);
#include "pairs.h"
#undef PAIR
    printf("a node of each of %d pairs of sizes in one program\n", pairs);
    return 0;
}
