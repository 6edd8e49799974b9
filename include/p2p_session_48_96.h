// Written by tools/exports.sh from tools/exports/session.table.
//
// The calls of a session with keys of 48 bytes, signatures of 96: BLS12-381, keys in G1. For C
// since C99 and C++ since C++11. Link with -lp2p_session.
//
// p2p_session_common.h has the obligations of the host, and the numbers that are no answers.
// docs/C.md says how arguments are encoded, and what the calls return.
#ifndef P2P_SESSION_48_96_H
#define P2P_SESSION_48_96_H

#include "p2p_session_common.h"

#ifdef __cplusplus
extern "C" {
#endif

// How many bytes a key and a signature have.
#define P2P_SESSION_48_96_KEY_SIZE 48
#define P2P_SESSION_48_96_SIGNATURE_SIZE 96

// The minimum length of the buffer of receive: a byte, and a key or 8 bytes.
#define P2P_SESSION_48_96_RECEIVE_ROOM 49

// A session, in memory of the host's.
struct p2p_session_48_96;

// How many bytes of memory a session has to have. They begin at a multiple of 16.
size_t p2p_session_48_96_size(void);

// Creates a session with no node in the memory at the pointer. It allocates nothing.
void p2p_session_48_96_new(struct p2p_session_48_96 *at);

// Ends the session and frees all that it holds. The memory at the pointer is the host's again.
void p2p_session_48_96_free(struct p2p_session_48_96 *at);

// Makes the call of this number, as docs/C.md lists them: for languages that bind no inline
// functions. numbers has the numbers of the call in their order, a bool as 0 or 1; first, second
// and third have its bytes, and those that it doesn't take are empty. BAD_CALL: no call has this
// number, or it takes other numbers or bytes. No pointer may be null, not even with length 0.
uint64_t p2p_session_48_96_call(struct p2p_session_48_96 *at, uint64_t number,
    const uint64_t *numbers, size_t numbers_length, const uint8_t *first, size_t first_length,
    const uint8_t *second, size_t second_length, const uint8_t *third, size_t third_length,
    uint8_t *out, size_t out_length);

// The same with peer as first, and with nothing in second, third and out: for the calls that take
// bytes in one place at most and write nothing. Its arguments are passed in registers, so it takes
// less time. No pointer may be null.
uint64_t p2p_session_48_96_call_peer(struct p2p_session_48_96 *at, uint64_t number,
    const uint64_t *numbers, size_t numbers_length, const uint8_t *peer, size_t peer_length);

// The same, each with a byte of its own in the place of a slice that has none. The functions below
// make their calls by these.
static inline uint64_t p2p_session_48_96_request(const struct p2p_session_48_96 *at,
    uint64_t number, const uint64_t *numbers, size_t numbers_length,
    const uint8_t *first, size_t first_length, const uint8_t *second, size_t second_length,
    const uint8_t *third, size_t third_length, uint8_t *out, size_t out_length)
{
    uint64_t no_number = 0;
    uint8_t none = 0;
    // A cast from a pointer to const is warned of, so it goes by way of a number.
    return p2p_session_48_96_call((struct p2p_session_48_96 *)(uintptr_t)at, number,
        numbers_length == 0 ? &no_number : numbers, numbers_length,
        first_length == 0 ? &none : first, first_length,
        second_length == 0 ? &none : second, second_length,
        third_length == 0 ? &none : third, third_length,
        out_length == 0 ? &none : out, out_length);
}

static inline uint64_t p2p_session_48_96_short_request(const struct p2p_session_48_96 *at,
    uint64_t number, const uint64_t *numbers, size_t numbers_length,
    const uint8_t *peer, size_t peer_length)
{
    uint64_t no_number = 0;
    uint8_t none = 0;
    return p2p_session_48_96_call_peer((struct p2p_session_48_96 *)(uintptr_t)at, number,
        numbers_length == 0 ? &no_number : numbers, numbers_length,
        peer_length == 0 ? &none : peer, peer_length);
}

// Creates the node of the session, once. Returns 1. BAD_SETTING: there is a node already, max_sets
// is 0 or UINT64_MAX, or max_bit_vec is above UINT32_MAX. bootstrappers: for each one its key and
// then its encoded ingress. myself: the encoded local info.
static inline uint64_t p2p_session_48_96_init(struct p2p_session_48_96 *at, bool allow_private_ips,
    bool allow_dns, uint64_t max_sets, uint64_t dial_fail_limit, uint64_t cooldown_seconds,
    uint32_t cooldown_nanos, uint64_t block_seconds, uint32_t block_nanos, uint64_t max_bit_vec,
    uint64_t max_peers, uint64_t max_data_length, uint64_t peer_gossip_max_count,
    uint64_t bound_seconds, uint32_t bound_nanos,
    const uint8_t *signing_namespace, size_t signing_namespace_length,
    const uint8_t *bootstrappers, size_t bootstrappers_length,
    const uint8_t *myself, size_t myself_length)
{
    (void)p2p_session_interface_982d1876193cea3c();
    const uint64_t numbers[] = {allow_private_ips, allow_dns, max_sets, dial_fail_limit,
        cooldown_seconds, cooldown_nanos, block_seconds, block_nanos, max_bit_vec, max_peers,
        max_data_length, peer_gossip_max_count, bound_seconds, bound_nanos};
    return p2p_session_48_96_request(at, 1, numbers, 14,
        signing_namespace, signing_namespace_length, bootstrappers, bootstrappers_length,
        myself, myself_length, NULL, 0);
}

// Registers a peer set. Returns NONE if its index is not greater than the latest, else the number
// of bytes written to torn: the keys of the peers that must be disconnected. NO_ROOM if torn is
// shorter than track_room returns: the set is not registered then. Keys may come in any order and
// more than once.
static inline uint64_t p2p_session_48_96_track(struct p2p_session_48_96 *at, uint64_t index,
    const uint8_t *primary, size_t primary_length,
    const uint8_t *secondary, size_t secondary_length, uint8_t *torn, size_t torn_length)
{
    const uint64_t numbers[] = {index};
    return p2p_session_48_96_request(at, 2, numbers, 1, primary, primary_length,
        secondary, secondary_length, NULL, 0, torn, torn_length);
}

// How many bytes torn must have in track: the size of a key for each peer with a record.
static inline uint64_t p2p_session_48_96_track_room(const struct p2p_session_48_96 *at)
{
    return p2p_session_48_96_short_request(at, 3, NULL, 0, NULL, 0);
}

// Reserves a peer to be dialled. Returns 1 if it is granted, else 0. The draw is a random duration
// (jitter).
static inline uint64_t p2p_session_48_96_dial(struct p2p_session_48_96 *at,
    const uint8_t *peer, size_t peer_length, uint64_t seconds, uint32_t nanos,
    uint64_t draw_seconds, uint32_t draw_nanos)
{
    const uint64_t numbers[] = {seconds, nanos, draw_seconds, draw_nanos};
    return p2p_session_48_96_short_request(at, 4, numbers, 4, peer, peer_length);
}

// Reserves an inbound peer. Returns 1 if it is granted, else 0. The draw is a random duration
// (jitter).
static inline uint64_t p2p_session_48_96_listen(struct p2p_session_48_96 *at,
    const uint8_t *peer, size_t peer_length, uint64_t seconds, uint32_t nanos,
    uint64_t draw_seconds, uint32_t draw_nanos)
{
    const uint64_t numbers[] = {seconds, nanos, draw_seconds, draw_nanos};
    return p2p_session_48_96_short_request(at, 5, numbers, 4, peer, peer_length);
}

// Describes the reservation that is held of a peer: byte 0 if it is inbound, or byte 1 and the
// encoded ingress that is dialled. NONE if none is held.
static inline uint64_t p2p_session_48_96_reservation(const struct p2p_session_48_96 *at,
    const uint8_t *peer, size_t peer_length, uint8_t *out, size_t out_length)
{
    return p2p_session_48_96_request(at, 6, NULL, 0, peer, peer_length, NULL, 0, NULL, 0,
        out, out_length);
}

// Marks a reserved peer as connected. Returns 1, or NOT_RESERVED.
static inline uint64_t p2p_session_48_96_connect(struct p2p_session_48_96 *at,
    const uint8_t *peer, size_t peer_length, bool dialer)
{
    const uint64_t numbers[] = {dialer};
    return p2p_session_48_96_short_request(at, 7, numbers, 1, peer, peer_length);
}

// Releases the reservation that is held of a peer. Returns 1, or NOT_HELD.
static inline uint64_t p2p_session_48_96_release(struct p2p_session_48_96 *at,
    const uint8_t *peer, size_t peer_length)
{
    return p2p_session_48_96_short_request(at, 8, NULL, 0, peer, peer_length);
}

// Offers infos, an encoded list, to the records of their peers. Returns 1. The host must have made
// or verified them itself.
static inline uint64_t p2p_session_48_96_update_peers(struct p2p_session_48_96 *at,
    const uint8_t *infos, size_t infos_length)
{
    return p2p_session_48_96_short_request(at, 9, NULL, 0, infos, infos_length);
}

// Blocks a peer. Returns 1 if the block takes effect, else 0.
static inline uint64_t p2p_session_48_96_block(struct p2p_session_48_96 *at,
    const uint8_t *peer, size_t peer_length, uint64_t seconds, uint32_t nanos)
{
    const uint64_t numbers[] = {seconds, nanos};
    return p2p_session_48_96_short_request(at, 10, numbers, 2, peer, peer_length);
}

// Ends the blocks that hold until this time or an earlier one. Returns 1 if there was one, else 0.
static inline uint64_t p2p_session_48_96_unblock_expired(struct p2p_session_48_96 *at,
    uint64_t seconds, uint32_t nanos)
{
    const uint64_t numbers[] = {seconds, nanos};
    return p2p_session_48_96_short_request(at, 11, numbers, 2, NULL, 0);
}

// Forgets the cooldowns whose dial time has come. Returns how many.
static inline uint64_t p2p_session_48_96_forget_cooled(struct p2p_session_48_96 *at,
    uint64_t seconds, uint32_t nanos)
{
    const uint64_t numbers[] = {seconds, nanos};
    return p2p_session_48_96_short_request(at, 12, numbers, 2, NULL, 0);
}

// The time at which the next block ends, in 12 bytes, or NONE.
static inline uint64_t p2p_session_48_96_next_unblock(const struct p2p_session_48_96 *at,
    uint8_t *out, size_t out_length)
{
    return p2p_session_48_96_request(at, 13, NULL, 0, NULL, 0, NULL, 0, NULL, 0, out, out_length);
}

// The keys of the blocked peers.
static inline uint64_t p2p_session_48_96_blocked_peers(const struct p2p_session_48_96 *at,
    uint64_t seconds, uint32_t nanos, uint8_t *out, size_t out_length)
{
    const uint64_t numbers[] = {seconds, nanos};
    return p2p_session_48_96_request(at, 14, numbers, 2, NULL, 0, NULL, 0, NULL, 0,
        out, out_length);
}

// The state of a peer: NONE if it has no record, 0 if it is inert, 1 if reserved, 2 if connected.
static inline uint64_t p2p_session_48_96_status(const struct p2p_session_48_96 *at,
    const uint8_t *peer, size_t peer_length)
{
    return p2p_session_48_96_short_request(at, 15, NULL, 0, peer, peer_length);
}

// The set with an index, or NONE: the number of primary peers in 8 bytes, their keys, and the keys
// of the secondary peers.
static inline uint64_t p2p_session_48_96_get_peer_set(const struct p2p_session_48_96 *at,
    uint64_t index, uint8_t *out, size_t out_length)
{
    const uint64_t numbers[] = {index};
    return p2p_session_48_96_request(at, 16, numbers, 1, NULL, 0, NULL, 0, NULL, 0,
        out, out_length);
}

// The index of the latest set, in 8 bytes, or NONE.
static inline uint64_t p2p_session_48_96_latest_set_index(const struct p2p_session_48_96 *at,
    uint8_t *out, size_t out_length)
{
    return p2p_session_48_96_request(at, 17, NULL, 0, NULL, 0, NULL, 0, NULL, 0, out, out_length);
}

// NONE, or the index and the lengths of the first three lists, in 8 bytes each, and then the keys
// of four lists: the primary and secondary peers of the latest set, then those of all sets.
static inline uint64_t p2p_session_48_96_latest_update(const struct p2p_session_48_96 *at,
    uint8_t *out, size_t out_length)
{
    return p2p_session_48_96_request(at, 18, NULL, 0, NULL, 0, NULL, 0, NULL, 0, out, out_length);
}

// The peers of all sets, in the form of get_peer_set.
static inline uint64_t p2p_session_48_96_all(const struct p2p_session_48_96 *at,
    uint8_t *out, size_t out_length)
{
    return p2p_session_48_96_request(at, 19, NULL, 0, NULL, 0, NULL, 0, NULL, 0, out, out_length);
}

// The encoded info of a peer, if it may be shared with others, or NONE.
static inline uint64_t p2p_session_48_96_info(const struct p2p_session_48_96 *at,
    const uint8_t *peer, size_t peer_length, uint8_t *out, size_t out_length)
{
    return p2p_session_48_96_request(at, 20, NULL, 0, peer, peer_length, NULL, 0, NULL, 0,
        out, out_length);
}

// The encoded list of infos to send to a peer that sent these bits. NONE if they are not as many as
// the primary peers of the set.
static inline uint64_t p2p_session_48_96_infos(const struct p2p_session_48_96 *at,
    const uint8_t *bits, size_t bits_length, uint64_t seconds, uint32_t nanos,
    uint8_t *out, size_t out_length)
{
    const uint64_t numbers[] = {seconds, nanos};
    return p2p_session_48_96_request(at, 21, numbers, 2, bits, bits_length, NULL, 0, NULL, 0,
        out, out_length);
}

// The encoded bits of the set at a position, with its index, or NONE.
static inline uint64_t p2p_session_48_96_get_random_bit_vec(const struct p2p_session_48_96 *at,
    uint64_t place, uint8_t *out, size_t out_length)
{
    const uint64_t numbers[] = {place};
    return p2p_session_48_96_request(at, 22, numbers, 1, NULL, 0, NULL, 0, NULL, 0,
        out, out_length);
}

// Whether a peer may be connected: 1 or 0.
static inline uint64_t p2p_session_48_96_eligible(const struct p2p_session_48_96 *at,
    const uint8_t *peer, size_t peer_length, uint64_t seconds, uint32_t nanos)
{
    const uint64_t numbers[] = {seconds, nanos};
    return p2p_session_48_96_short_request(at, 23, numbers, 2, peer, peer_length);
}

// Whether a connection of a peer may be accepted: 1 or 0.
static inline uint64_t p2p_session_48_96_acceptable(const struct p2p_session_48_96 *at,
    const uint8_t *peer, size_t peer_length, uint64_t seconds, uint32_t nanos)
{
    const uint64_t numbers[] = {seconds, nanos};
    return p2p_session_48_96_short_request(at, 24, numbers, 2, peer, peer_length);
}

// Byte 0, or byte 1 and the time at which to ask again, and then the keys of the peers that may be
// dialled.
static inline uint64_t p2p_session_48_96_dialable(const struct p2p_session_48_96 *at,
    uint64_t seconds, uint32_t nanos, uint8_t *out, size_t out_length)
{
    const uint64_t numbers[] = {seconds, nanos};
    return p2p_session_48_96_request(at, 25, numbers, 2, NULL, 0, NULL, 0, NULL, 0,
        out, out_length);
}

// How many sets are retained: positions below this number have a set.
static inline uint64_t p2p_session_48_96_retained(const struct p2p_session_48_96 *at)
{
    return p2p_session_48_96_short_request(at, 26, NULL, 0, NULL, 0);
}

// The time at which forget_cooled next forgets something, in 12 bytes, or NONE if no cooldown is
// kept.
static inline uint64_t p2p_session_48_96_next_cooled(const struct p2p_session_48_96 *at,
    uint8_t *out, size_t out_length)
{
    return p2p_session_48_96_request(at, 27, NULL, 0, NULL, 0, NULL, 0, NULL, 0, out, out_length);
}

// How many peers have a record, except the local node.
static inline uint64_t p2p_session_48_96_tracked(const struct p2p_session_48_96 *at)
{
    return p2p_session_48_96_short_request(at, 28, NULL, 0, NULL, 0);
}

// The frame that asks for the wanted infos of the set at a position, or NONE.
static inline uint64_t p2p_session_48_96_ask(const struct p2p_session_48_96 *at, uint64_t place,
    uint8_t *out, size_t out_length)
{
    const uint64_t numbers[] = {place};
    return p2p_session_48_96_request(at, 29, numbers, 1, NULL, 0, NULL, 0, NULL, 0,
        out, out_length);
}

// Lists the signatures to verify before receive: first the number of infos of the frame, in 8
// bytes. Then follows, in their order, each info whose signature decides whether it is refused: the
// length of its signed bytes in 8 bytes, its key, the signed bytes, its signature. The list stops
// before the first info that is refused whatever its signature is. Namespace and signature scheme
// are the host's. The session keeps the frame, decoded, for receive, until that is given the same
// bytes or check another frame.
static inline uint64_t p2p_session_48_96_check(const struct p2p_session_48_96 *at,
    const uint8_t *frame, size_t frame_length, uint64_t seconds, uint32_t nanos,
    uint8_t *out, size_t out_length)
{
    const uint64_t numbers[] = {seconds, nanos};
    return p2p_session_48_96_request(at, 30, numbers, 2, frame, frame_length, NULL, 0, NULL, 0,
        out, out_length);
}

// Processes a frame. verdicts has one byte for each info of the frame, in their order: 0 if its
// signature is invalid. Bytes after the first 0 are ignored, and so are those of infos that check
// does not list. NO_ROOM if out has fewer than 9 bytes, or fewer than a key and one. BAD_VERDICTS
// if verdicts and infos differ in number. Writes byte 0 for a message, its channel in 8 bytes and
// its length in 8: it is the last so many bytes of the frame; byte 1 and the key of the peer whose
// greeting was applied; byte 2 and the frame to reply with; byte 3 and how many infos were applied,
// in 8 bytes; byte 4 and the error of the frame; byte 5 if bits and peers differ in number; byte 6
// and why infos are refused. docs/C.md lists these errors and refusals.
static inline uint64_t p2p_session_48_96_receive(struct p2p_session_48_96 *at,
    const uint8_t *frame, size_t frame_length, uint64_t seconds, uint32_t nanos,
    const uint8_t *verdicts, size_t verdicts_length, uint8_t *out, size_t out_length)
{
    const uint64_t numbers[] = {seconds, nanos};
    return p2p_session_48_96_request(at, 31, numbers, 2, frame, frame_length,
        verdicts, verdicts_length, NULL, 0, out, out_length);
}

// Whether listen of a peer would grant a reservation, memory aside: 1 or 0.
static inline uint64_t p2p_session_48_96_may_listen(const struct p2p_session_48_96 *at,
    const uint8_t *peer, size_t peer_length, uint64_t seconds, uint32_t nanos)
{
    const uint64_t numbers[] = {seconds, nanos};
    return p2p_session_48_96_short_request(at, 32, numbers, 2, peer, peer_length);
}

// The encoded address that is held of a peer, whether or not it may be dialled, or NONE.
static inline uint64_t p2p_session_48_96_ingress(const struct p2p_session_48_96 *at,
    const uint8_t *peer, size_t peer_length, uint8_t *out, size_t out_length)
{
    return p2p_session_48_96_request(at, 33, NULL, 0, peer, peer_length, NULL, 0, NULL, 0,
        out, out_length);
}

#ifdef __cplusplus
}
#endif

#endif
