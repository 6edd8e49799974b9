// Written by tools/exports.sh from tools/exports/session.table.
//
// What the sessions of all pairs of sizes have in common. Include the header of your pair:
//
//   p2p_session.h        keys of 32 bytes, signatures of 64: ed25519.
//   p2p_session_33_64.h  keys of 33 bytes, signatures of 64: secp256k1 and secp256r1, compressed.
//   p2p_session_48_96.h  keys of 48 bytes, signatures of 96: BLS12-381, keys in G1.
//   p2p_session_96_48.h  keys of 96 bytes, signatures of 48: BLS12-381, keys in G2.
//
// OBLIGATIONS OF THE HOST. Nothing checks them, and what is proved of the calls is true only if
// they are met. PREFIX stands for what the calls of a pair begin with, such as p2p_session.
//
// - Memory of a session: it has PREFIX_size() bytes and begins at a multiple of
//   P2P_SESSION_ALIGNMENT. While a session is in it, the host neither reads, writes nor moves it.
// - Order: PREFIX_new comes before each other call of a session, and PREFIX_free once, after the
//   last.
// - Threads: one call at a time is made on a session, by a pointer to const, too: that says only
//   that the call changes nothing that a caller sees. Between two calls it may go to another
//   thread, by a lock, by the start or the end of a thread, or by an atomic that is sequentially
//   consistent. Calls of different sessions may be made at the same time.
// - Slices: a slice is a pointer to its first byte and how many bytes it has. All of them are
//   initialised, even those of a slice to be written, and stay as they are until the call ends. A
//   slice that is written overlaps no other slice, and none overlaps the memory of the session. If
//   the length is 0, the pointer may be null, or any other, but not in PREFIX_call.
// - Allocator: malloc, realloc and free come from one allocator. Blocks of malloc and realloc begin
//   at a multiple of each power of two up to 16 that divides their size.
// - Signals and forks: no call is made in a signal handler, nor in the forked child of a process
//   that has threads.
// - Stack: P2P_SESSION_STACK bytes of the thread's stack are free at each call. That is computed
//   from the machine code, not proved (tools/stack.py): while no list and no map has more than
//   16,000,000 entries, a call takes at most 26 KiB, and 6 KiB are left for what it calls of the
//   C library.
//
// A call returns a count, a bool as 0 or 1, a length, or one of the numbers for which
// P2P_SESSION_IS_REFUSAL is true. If a query returns a length above that of its buffer, it has
// written nothing: call it again with a buffer of that length. A call that changes something says
// how long its buffer must be, and has no effect if it is shorter.
#ifndef P2P_SESSION_COMMON_H
#define P2P_SESSION_COMMON_H

#include <stdbool.h>
#include <stddef.h>
#include <stdint.h>

#ifdef __cplusplus
extern "C" {
#endif

// The version of the library that this header is of.
#define P2P_SESSION_VERSION "0.1.0"
#define P2P_SESSION_VERSION_MAJOR 0
#define P2P_SESSION_VERSION_MINOR 1
#define P2P_SESSION_VERSION_PATCH 0

// How many bytes a time in an answer has.
#define P2P_SESSION_MOMENT_SIZE 12

// The memory of a session begins at a multiple of it.
#define P2P_SESSION_ALIGNMENT 16

// How many bytes of stack are free at each call.
#define P2P_SESSION_STACK 32768

// Why a call fails, or has no answer: nothing has changed then, and nothing was written.
//
// Out of memory.
#define P2P_SESSION_MEMORY (UINT64_MAX)
// init has created no node yet. This comes before all others but BAD_CALL.
#define P2P_SESSION_NO_NODE (UINT64_MAX - 1)
// There is none.
#define P2P_SESSION_NONE (UINT64_MAX - 2)
// The buffer is shorter than the longest answer of a call that changes something.
#define P2P_SESSION_NO_ROOM (UINT64_MAX - 3)
// There is no reservation to connect.
#define P2P_SESSION_NOT_RESERVED (UINT64_MAX - 4)
// There is no reservation to release.
#define P2P_SESSION_NOT_HELD (UINT64_MAX - 5)
// Bytes that are no key: another number of bytes, or a first byte that no key of these sizes has.
#define P2P_SESSION_BAD_KEY (UINT64_MAX - 6)
// Bytes that are no keys, one after the other.
#define P2P_SESSION_BAD_KEYS (UINT64_MAX - 7)
// No info, no list of infos, no address, or no bootstrappers.
#define P2P_SESSION_BAD_INFO (UINT64_MAX - 8)
// No bits with their index, or more than UINT32_MAX of them.
#define P2P_SESSION_BAD_BITS (UINT64_MAX - 9)
// A second of nanoseconds or more.
#define P2P_SESSION_BAD_MOMENT (UINT64_MAX - 10)
// A setting out of its bounds, or there is a node already.
#define P2P_SESSION_BAD_SETTING (UINT64_MAX - 11)
// Not as many verdicts as infos.
#define P2P_SESSION_BAD_VERDICTS (UINT64_MAX - 12)
// No call has this number, or it takes other numbers or bytes. This comes before all others.
#define P2P_SESSION_BAD_CALL (UINT64_MAX - 13)

// Whether a call returned one of these numbers.
#define P2P_SESSION_IS_REFUSAL(answer) ((answer) >= P2P_SESSION_BAD_CALL)

// Why a call returned this number, in words, or a null pointer if it is none of these numbers.
static inline const char *p2p_session_refusal_text(uint64_t answer)
{
    static const char *const texts[] = {
        "Out of memory",
        "init has created no node yet",
        "There is none",
        "The buffer is shorter than the longest answer of a call that changes something",
        "There is no reservation to connect",
        "There is no reservation to release",
        "Bytes that are no key",
        "Bytes that are no keys, one after the other",
        "No info, no list of infos, no address, or no bootstrappers",
        "No bits with their index, or more than UINT32_MAX of them",
        "A second of nanoseconds or more",
        "A setting out of its bounds, or there is a node already",
        "Not as many verdicts as infos",
        "No call has this number, or it takes other numbers or bytes",
    };
    return P2P_SESSION_IS_REFUSAL(answer) ? texts[UINT64_MAX - answer] : NULL;
}

// Returns 1. An archive with other calls, refusals or sizes has no function of this name. The calls
// named init refer to it, so a host doesn't link with such an archive.
uint64_t p2p_session_interface_982d1876193cea3c(void);

// Functions that need no session. The exports of these names take no null pointer, so here they are
// declared by other names.

uint64_t p2p_session_is_global_export(const uint8_t *address, size_t address_length)
    __asm__("p2p_session_is_global");
static inline uint64_t p2p_session_is_global(const uint8_t *address, size_t address_length)
    __asm__("p2p_session_is_global_inline");
// Whether an address of 4 or 16 bytes is global: 1 or 0. BAD_INFO for another number of bytes. It
// needs no session.
static inline uint64_t p2p_session_is_global(const uint8_t *address, size_t address_length)
{
    const uint8_t none = 0;
    return p2p_session_is_global_export(address_length == 0 ? &none : address, address_length);
}

uint64_t p2p_session_is_valid_export(const uint8_t *address, size_t address_length,
    bool allow_private_ips, bool allow_dns) __asm__("p2p_session_is_valid");
static inline uint64_t p2p_session_is_valid(const uint8_t *address, size_t address_length,
    bool allow_private_ips, bool allow_dns) __asm__("p2p_session_is_valid_inline");
// Whether an ingress may be dialled under these settings: 1 or 0. address: the 4 or 16 bytes of its
// address, or none if it is a name. BAD_INFO for another number of bytes. It needs no session.
static inline uint64_t p2p_session_is_valid(const uint8_t *address, size_t address_length,
    bool allow_private_ips, bool allow_dns)
{
    const uint8_t none = 0;
    return p2p_session_is_valid_export(address_length == 0 ? &none : address, address_length,
        allow_private_ips, allow_dns);
}

#ifdef __cplusplus
}
#endif

#endif
