// A node in C: it tracks a set of two peers, lets one of them come, which greets, asks for the infos of both, and takes
// them from a frame whose signatures it verifies. C99 and C++11. tools/host_c.sh builds and runs it over the archive.
#include "p2p_session.h"

#include <inttypes.h>
#include <stdio.h>
#include <stdlib.h>
#include <string.h>

enum { KEY = P2P_SESSION_KEY_SIZE, SIGNATURE = P2P_SESSION_SIGNATURE_SIZE };
// A socket address of version 4 with its prefixes, and what a signature of an info is over.
enum { INGRESS = 8, SIGNED = INGRESS + 8, INFO = INGRESS + 1 + KEY + SIGNATURE };

static const uint8_t NET[] = {'n', 'e', 't'};
static const uint64_t NOW = 100;

// In nanoseconds. The cooldown is that of init below.
static const uint64_t SECOND = 1000000000, COOLDOWN = 10000000000;

// Ends the program where a call answers something else.
static void expect(const char *call, uint64_t answer, uint64_t expected) {
    if (answer == expected)
        return;
    fprintf(stderr, "%s answers %" PRIu64 ", not %" PRIu64 "\n", call, answer, expected);
    exit(1);
}

static void expect_bytes(const char *call, const uint8_t *bytes, const uint8_t *expected, size_t length) {
    if (memcmp(bytes, expected, length) == 0)
        return;
    fprintf(stderr, "%s writes other bytes\n", call);
    exit(1);
}

static void print_bytes(const char *name, const uint8_t *bytes, uint64_t length) {
    printf("%s: ", name);
    for (uint64_t i = 0; i < length; i++)
        printf("%02x", bytes[i]);
    printf("\n");
}

static uint64_t read_number(const uint8_t *bytes) {
    uint64_t number = 0;
    for (int i = 0; i < 8; i++)
        number = number << 8 | bytes[i];
    return number;
}

// The jitter of a reservation: a random number of nanoseconds from 0 to twice the half of the cooldown. Draw one for each
// reservation: nodes that always pass 0 dial each other at the same times, and are refused each time. A host has a better
// generator than rand.
static uint64_t draw(void) {
    uint64_t random = (uint64_t)rand() << 42 ^ (uint64_t)rand() << 21 ^ (uint64_t)rand();
    return random % (2 * (COOLDOWN / 2) + 1);
}

// Reserves an inbound peer.
static uint64_t listen_to(struct p2p_session *session, const uint8_t *key, size_t length) {
    uint64_t jitter = draw();
    return p2p_session_listen(session, key, length, NOW, 0, jitter / SECOND, (uint32_t)(jitter % SECOND));
}

// The scheme of this example: a sum, which is no protection at all. A host has its own.
static void sign(const uint8_t *key, const uint8_t *message, uint64_t length, uint8_t *signature) {
    uint8_t sum = key[0];
    for (size_t i = 0; i < sizeof NET; i++)
        sum = (uint8_t)(sum * 31 + NET[i]);
    for (uint64_t i = 0; i < length; i++)
        sum = (uint8_t)(sum * 31 + message[i]);
    memset(signature, sum, SIGNATURE);
}

// The key whose bytes are all `number`, but for the first where a key begins with a given byte.
static void fill_key(uint8_t *key, uint8_t number) {
    memset(key, number, KEY);
#ifdef FIRST_BYTE
    key[0] = FIRST_BYTE;
#endif
}

// Spells the info of the key whose bytes are all `number`, at 1.2.3.4:8000 and a timestamp below 128.
static void spell_info(uint8_t number, uint8_t timestamp, uint8_t *info) {
    const uint8_t message[SIGNED] = {0, 4, 1, 2, 3, 4, 0x1f, 0x40, 0, 0, 0, 0, 0, 0, 0, timestamp};
    memcpy(info, message, INGRESS);
    info[INGRESS] = timestamp;
    fill_key(info + INGRESS + 1, number);
    sign(info + INGRESS + 1, message, SIGNED, info + INGRESS + 1 + KEY);
}

// A session with a node whose key has bytes 9, or null where memory is refused.
static struct p2p_session *make_node(void) {
    // Here malloc returns multiples of 16, as P2P_SESSION_ALIGNMENT asks for.
    struct p2p_session *session = (struct p2p_session *)malloc(p2p_session_size());
    if (session == NULL)
        return NULL;
    p2p_session_new(session);
    expect("tracked without a node", p2p_session_tracked(session), P2P_SESSION_NO_NODE);

    uint8_t myself[INFO];
    spell_info(9, 0, myself);
    uint64_t made = p2p_session_init(session,
        true,       // allow_private_ips
        true,       // allow_dns
        1,          // max_sets
        1,          // dial_fail_limit
        10, 0,      // cooldown
        60, 0,      // block
        1024,       // max_bit_vec
        256,        // max_peers
        4096,       // max_data_length
        256,        // peer_gossip_max_count
        30, 0,      // synchrony bound
        NET, sizeof NET,
        NULL, 0,    // bootstrappers
        myself, sizeof myself);
    expect("init", made, 1);
    return session;
}

// Tracks a set without secondary peers, with room for whom it may tear down. A host disconnects these.
static uint64_t track(struct p2p_session *session, uint64_t index, const uint8_t *primary, size_t length) {
    uint64_t room = p2p_session_track_room(session);
    uint8_t *torn = NULL;
    if (room > 0 && (torn = (uint8_t *)calloc(room, 1)) == NULL)
        exit(3);
    uint64_t answer = p2p_session_track(session, index, primary, length, NULL, 0, torn, room);
    for (uint64_t i = 0; answer <= room && i < answer; i += KEY)
        print_bytes("disconnect", torn + i, KEY);
    free(torn);
    return answer;
}

// Tracks the peers whose keys have bytes 1 and 2, and connects the first, which comes.
static void track_and_connect(struct p2p_session *session) {
    uint8_t peers[2 * KEY];
    fill_key(peers, 1);
    fill_key(peers + KEY, 2);
    expect("track", track(session, 0, peers, sizeof peers), 0);
    expect("track of an index that is not above", track(session, 0, NULL, 0), P2P_SESSION_NONE);
    expect("track without room", p2p_session_track(session, 1, NULL, 0, NULL, 0, NULL, 0), P2P_SESSION_NO_ROOM);
    expect("tracked", p2p_session_tracked(session), 2);

    expect("listen", listen_to(session, peers, KEY), 1);
    expect("listen again", listen_to(session, peers, KEY), 0);
    expect("listen without a key", listen_to(session, NULL, 0), P2P_SESSION_BAD_KEY);
#ifdef FIRST_BYTE
    uint8_t other[KEY] = {0};
    expect("listen to no key", listen_to(session, other, KEY), P2P_SESSION_BAD_KEY);
    expect("track of no keys", track(session, 1, other, KEY), P2P_SESSION_BAD_KEYS);
#endif
    expect("connect", p2p_session_connect(session, peers, KEY, false), 1);
    expect("status", p2p_session_status(session, peers, KEY), 2);
}

// Asks for what is wanted of the set: first how long the frame is, then for the frame.
static void ask(struct p2p_session *session, const uint8_t *expected, size_t length) {
    uint8_t frame[16];
    expect("ask for a length", p2p_session_ask(session, 0, NULL, 0), length);
    expect("ask", p2p_session_ask(session, 0, frame, sizeof frame), length);
    expect_bytes("ask", frame, expected, length);
    print_bytes("ask", frame, length);
}

// Verifies what has to be verified of a frame, up to the first signature that isn't right. Answers how many infos the
// frame has; a verdict stands for each of them, 0 where none is wanted.
static uint64_t judge(struct p2p_session *session, const uint8_t *frame, size_t length, uint8_t *verdicts) {
    uint8_t asked[8 + 2 * (8 + KEY + SIGNED + SIGNATURE)];
    uint64_t end = p2p_session_check(session, frame, length, NOW, 0, asked, sizeof asked);
    if (P2P_SESSION_IS_REFUSAL(end) || end > sizeof asked)
        exit(1);
    uint64_t count = read_number(asked), judged = 0;
    memset(verdicts, 0, count);
    for (uint64_t place = 8; place < end; judged++) {
        uint64_t message_length = read_number(asked + place);
        const uint8_t *key = asked + place + 8, *message = key + KEY, *signature = message + message_length;
        uint8_t right[SIGNATURE];
        sign(key, message, message_length, right);
        verdicts[judged] = memcmp(signature, right, SIGNATURE) == 0;
        if (!verdicts[judged])
            break;
        place += 8 + KEY + message_length + SIGNATURE;
    }
    printf("%" PRIu64 " of %" PRIu64 " signatures are right\n", judged, count);
    return count;
}

// Takes a frame, with the verdicts on its signatures, and expects this answer.
static void receive(struct p2p_session *session, const uint8_t *frame, size_t length, const uint8_t *expected,
    size_t expected_length) {
    uint8_t verdicts[2], answer[P2P_SESSION_RECEIVE_ROOM];
    uint64_t count = judge(session, frame, length, verdicts);
    const uint8_t *told = count == 0 ? NULL : verdicts;
    expect("receive without room", p2p_session_receive(session, frame, length, NOW, 0, told, count, NULL, 0),
        P2P_SESSION_NO_ROOM);
    expect("receive", p2p_session_receive(session, frame, length, NOW, 0, told, count, answer, sizeof answer),
        expected_length);
    expect_bytes("receive", answer, expected, expected_length);
    print_bytes("receive", answer, expected_length);
}

// Takes the greeting of the peer whose key has bytes 1: who greets is told. A message is told by its channel and length.
static void greet_and_talk(struct p2p_session *session) {
    uint8_t greeting[1 + INFO] = {1}, greeted[1 + KEY] = {1};
    spell_info(1, 5, greeting + 1);
    fill_key(greeted + 1, 1);
    receive(session, greeting, sizeof greeting, greeted, sizeof greeted);

    const uint8_t data[] = {0, 7, 5, 'h', 'e', 'l', 'l', 'o'};
    const uint8_t told[] = {0, 0, 0, 0, 0, 0, 0, 0, 7, 0, 0, 0, 0, 0, 0, 0, 5};
    receive(session, data, sizeof data, told, sizeof told);
    printf("message: %.5s\n", (const char *)data + sizeof data - told[sizeof told - 1]);
}

// Questions that need no session: which addresses a name may resolve to, and what may be dialled.
static void judge_addresses(void) {
    const uint8_t local[] = {127, 0, 0, 1}, global[] = {8, 8, 8, 8};
    expect("is_global", p2p_session_is_global(local, sizeof local), 0);
    expect("is_global", p2p_session_is_global(global, sizeof global), 1);
    expect("is_global of no address", p2p_session_is_global(NULL, 0), P2P_SESSION_BAD_INFO);
    expect("is_valid", p2p_session_is_valid(local, sizeof local, true, false), 1);
    expect("is_valid of a name", p2p_session_is_valid(NULL, 0, true, false), 0);
}

int main(void) {
    judge_addresses();
    struct p2p_session *session = make_node();
    if (session == NULL)
        return 3;
    track_and_connect(session);
    expect("retained", p2p_session_retained(session), 1);
    // The bits of set 0: of its two peers no info is known.
    const uint8_t nothing_known[] = {2, 0, 2, 0};
    ask(session, nothing_known, sizeof nothing_known);

    // No frame: it ends too early.
    const uint8_t too_short[] = {4, 0};
    receive(session, NULL, 0, too_short, sizeof too_short);
    // The infos of both peers, first with a bad signature of the second.
    uint8_t frame[2 + 2 * INFO] = {3, 2};
    spell_info(1, 10, frame + 2);
    spell_info(2, 20, frame + 2 + INFO);
    frame[sizeof frame - 1] ^= 1;
    const uint8_t bad_signature[] = {6, 2};
    receive(session, frame, sizeof frame, bad_signature, sizeof bad_signature);
    ask(session, nothing_known, sizeof nothing_known);
    frame[sizeof frame - 1] ^= 1;
    const uint8_t applied[] = {3, 0, 0, 0, 0, 0, 0, 0, 2};
    receive(session, frame, sizeof frame, applied, sizeof applied);
    const uint8_t both_known[] = {2, 0, 2, 3};
    ask(session, both_known, sizeof both_known);
    greet_and_talk(session);

    uint8_t peer[KEY];
    fill_key(peer, 1);
    expect("release", p2p_session_release(session, peer, KEY), 1);
    expect("release again", p2p_session_release(session, peer, KEY), P2P_SESSION_NOT_HELD);
    expect("status after the release", p2p_session_status(session, peer, KEY), 0);
    p2p_session_free(session);
    free(session);
    return 0;
}
