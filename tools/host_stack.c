// Runs examples/session.c, and then each call with 1,000 peers, on stacks of half of P2P_SESSION_STACK, with a page below
// each that nobody may touch. Says how many bytes of it were written, those of the C library included.
//
// tools/host_c.sh and tools/other_targets.sh compile it with the example, whose main is session_main then.
#define _GNU_SOURCE
#include "p2p_session.h"

#include <stdio.h>
#include <stdlib.h>
#include <string.h>
#include <sys/mman.h>
#include <ucontext.h>
#include <unistd.h>

enum { PEERS = 1000, KEY = P2P_SESSION_KEY_SIZE, SIGNATURE = P2P_SESSION_SIGNATURE_SIZE };
enum { INFO = 9 + KEY + SIGNATURE, INFOS = 256, FRAME = 3 + INFOS * INFO, ROOM = 1 << 20 };
enum { STACK = P2P_SESSION_STACK / 2, PAINT = 0xa5 };

static uint8_t keys[PEERS * KEY], frame[FRAME], out[ROOM];

int session_main(void);

static uint64_t need(const char *call, uint64_t answer) {
    if (P2P_SESSION_IS_REFUSAL(answer)) {
        fprintf(stderr, "%s is refused\n", call);
        exit(1);
    }
    return answer;
}

// Gives a key its first byte, where a key begins with a given one.
static void begin_key(uint8_t *key) {
#ifdef FIRST_BYTE
    key[0] = FIRST_BYTE;
#else
    (void)key;
#endif
}

// The first infos of the peers, at 1.2.3.4:8000 and a timestamp, behind the head of a frame.
static void spell_frame(uint8_t timestamp) {
    const uint8_t head[] = {3, 0x80, 2}, ingress[] = {0, 4, 1, 2, 3, 4, 0x1f, 0x40};
    memcpy(frame, head, sizeof head);
    for (size_t i = 0; i < INFOS; i++) {
        uint8_t *info = frame + sizeof head + i * INFO;
        memcpy(info, ingress, sizeof ingress);
        info[8] = timestamp;
        memcpy(info + 9, keys + i * KEY, KEY);
        memset(info + 9 + KEY, 1, SIGNATURE);
    }
}

static struct p2p_session *make_node(void) {
    size_t size = (p2p_session_size() + P2P_SESSION_ALIGNMENT - 1) / P2P_SESSION_ALIGNMENT * P2P_SESSION_ALIGNMENT;
    struct p2p_session *session = aligned_alloc(P2P_SESSION_ALIGNMENT, size);
    if (session == NULL)
        exit(3);
    p2p_session_new(session);
    // The info of a key that no peer has.
    memset(keys, 0xff, KEY);
    begin_key(keys);
    spell_frame(0);
    need("init", p2p_session_init(session, true, true, 2, 1, 10, 0, 60, 0, PEERS, INFOS, ROOM, INFOS, 30, 0, NULL, 0,
        NULL, 0, frame + 3, INFO));
    for (size_t i = 0; i < PEERS; i++) {
        uint8_t *key = keys + i * KEY;
        memset(key, 0, KEY);
        key[0] = (uint8_t)(i * 37);
        key[1] = (uint8_t)(i >> 8);
        key[2] = (uint8_t)i;
        begin_key(key);
    }
    return session;
}

// What is told of all peers.
static void ask_all(struct p2p_session *session, uint64_t index) {
    need("all", p2p_session_all(session, out, ROOM));
    need("latest_update", p2p_session_latest_update(session, out, ROOM));
    need("get_peer_set", p2p_session_get_peer_set(session, index, out, ROOM));
    need("latest_set_index", p2p_session_latest_set_index(session, out, ROOM));
    need("dialable", p2p_session_dialable(session, 100, 0, out, ROOM));
    need("blocked_peers", p2p_session_blocked_peers(session, 100, 0, out, ROOM));
    uint64_t length = need("get_random_bit_vec", p2p_session_get_random_bit_vec(session, 0, out, ROOM));
    uint8_t bits[PEERS];
    memcpy(bits, out, length);
    need("infos", p2p_session_infos(session, bits, length, 100, 0, out, ROOM));
    length = need("ask", p2p_session_ask(session, 0, out, ROOM));
    memcpy(bits, out, length);
    need("receive of bits", p2p_session_receive(session, bits, length, 100, 0, NULL, 0, out, ROOM));
}

// What is asked and told of each peer.
static void call_each(struct p2p_session *session, uint64_t index) {
    for (size_t i = 0; i < PEERS; i++) {
        const uint8_t *peer = keys + i * KEY;
        // Of the first peers there is an info, by which they are dialled.
        if (need("dial", p2p_session_dial(session, peer, KEY, 100, 0, 0, 0)) != (i < INFOS))
            exit(1);
        if (i >= INFOS && need("listen", p2p_session_listen(session, peer, KEY, 100, 0, 0, 0)) != 1)
            exit(1);
        need("reservation", p2p_session_reservation(session, peer, KEY, out, ROOM));
        need("connect", p2p_session_connect(session, peer, KEY, i < INFOS));
        p2p_session_info(session, peer, KEY, out, ROOM);
        need("status", p2p_session_status(session, peer, KEY));
        need("eligible", p2p_session_eligible(session, peer, KEY, 100, 0));
        need("acceptable", p2p_session_acceptable(session, peer, KEY, 100, 0));
        need("may_listen", p2p_session_may_listen(session, peer, KEY, 100, 0));
        p2p_session_ingress(session, peer, KEY, out, ROOM);
    }
    ask_all(session, index);
    for (size_t i = 0; i < PEERS; i++) {
        if (i % 3 == 0)
            need("block", p2p_session_block(session, keys + i * KEY, KEY, 100, 0));
        p2p_session_release(session, keys + i * KEY, KEY);
    }
    ask_all(session, index);
    need("next_unblock", p2p_session_next_unblock(session, out, ROOM));
}

// Each call, on sets of 1,000 and of 900 peers by turns, and on the infos of 256.
static int load(void) {
    struct p2p_session *session = make_node();
    uint8_t verdicts[INFOS];
    memset(verdicts, 1, INFOS);
    for (uint8_t i = 0; i < 4; i++) {
        need("track", p2p_session_track(session, i, keys, sizeof keys - i % 2 * 100 * KEY, NULL, 0, out, ROOM));
        spell_frame((uint8_t)(1 + i));
        need("check", p2p_session_check(session, frame, FRAME, 100, 0, out, ROOM));
        need("receive", p2p_session_receive(session, frame, FRAME, 100, 0, verdicts, INFOS, out, ROOM));
        need("update_peers", p2p_session_update_peers(session, frame + 1, FRAME - 1));
        call_each(session, i);
        need("unblock_expired", p2p_session_unblock_expired(session, 1000, 0));
        need("forget_cooled", p2p_session_forget_cooled(session, 1000, 0));
    }
    p2p_session_free(session);
    free(session);
    return 0;
}

// A stack that is painted, above a page that nobody may touch.
static uint8_t *make_stack(void) {
    size_t guard = (size_t)sysconf(_SC_PAGESIZE);
    uint8_t *at = mmap(NULL, guard + STACK, PROT_READ | PROT_WRITE, MAP_PRIVATE | MAP_ANONYMOUS, -1, 0);
    if (at == MAP_FAILED || mprotect(at, guard, PROT_NONE) != 0)
        exit(3);
    return memset(at + guard, PAINT, STACK);
}

static int (*work)(void);
static int status;

static void run(void) {
    status = work();
}

// Runs it on such a stack. The least that a thread may have is more than that on some processors, so it is no thread.
static void measure(const char *name, int (*measured)(void)) {
    uint8_t *stack = make_stack();
    ucontext_t here, there;
    work = measured;
    if (getcontext(&there) != 0)
        exit(3);
    there.uc_stack.ss_sp = stack;
    there.uc_stack.ss_size = STACK;
    there.uc_link = &here;
    makecontext(&there, run, 0);
    if (swapcontext(&here, &there) != 0)
        exit(3);
    if (status != 0)
        exit(1);
    size_t clean = 0;
    while (clean < STACK && stack[clean] == PAINT)
        clean++;
    printf("%s: %zu of %d bytes of stack were written\n", name, STACK - clean, STACK);
}

int main(void) {
    measure("example", session_main);
    measure("calls with 1,000 peers", load);
    return 0;
}
