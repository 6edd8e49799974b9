// Logs of calls, as docs/FORMATS.md says them: what the recorder writes and the player reads.
//
// tools/other_targets.sh writes calls.h from tools/exports/session.table: for each call CALL(its number, its parameters in
// their order: n for a number or a bool, b for bytes that are read, o for a buffer that is written). pairs.h has for each pair
// of sizes PAIR(what its calls begin with, the size of a key, the size of a signature).
#ifndef LOG_H
#define LOG_H

#include "headers.h"

#include <stdbool.h>
#include <stdint.h>
#include <stdio.h>
#include <stdlib.h>
#include <string.h>

enum { HEAD = 41, LAST = 17, ARCHIVE = 32, MESSAGE_HEAD = 16, MOST_NUMBERS = 16, MOST_SLICES = 3 };
enum { NO_CALL = 0, WHOLE = 0xff };

// In the place of the length of a slice: it is the first one of the last call with slices, or a part of a message.
#define REPEATED UINT32_MAX
#define SHORTENED (UINT32_MAX - 1)

// The parameters of each call, by its number.
static const char *const forms[] = {
    "",
#define CALL(number, parameters) parameters,
#include "calls.h"
#undef CALL
};

#define CALLS (sizeof forms / sizeof forms[0])

// How many of these a call takes.
static inline size_t count_of(uint64_t number, char kind) {
    size_t count = 0;
    for (const char *at = forms[number]; *at != 0; at++)
        count += *at == kind;
    return count;
}

typedef uint64_t call_of(void *at, uint64_t number, const uint64_t *numbers, size_t numbers_length, const uint8_t *first,
    size_t first_length, const uint8_t *second, size_t second_length, const uint8_t *third, size_t third_length,
    uint8_t *out, size_t out_length);

typedef uint64_t peer_call_of(void *at, uint64_t number, const uint64_t *numbers, size_t numbers_length, const uint8_t *peer,
    size_t peer_length);

struct bytes {
    const uint8_t *at;
    size_t length;
};

// How many bytes a call wrote.
static inline size_t written(uint64_t answer, size_t room) {
    return answer < P2P_SESSION_BAD_CALL && answer <= room ? answer : 0;
}

// Bytes that grow.
struct text {
    uint8_t *at;
    size_t length, room;
};

static inline void append(struct text *text, const void *from, size_t length) {
    if (text->room - text->length < length) {
        text->room = (text->length + length) * 2;
        text->at = realloc(text->at, text->room);
        if (text->at == NULL)
            exit(3);
    }
    if (length > 0)
        memcpy(text->at + text->length, from, length);
    text->length += length;
}

static inline void append_number(struct text *text, uint64_t number, size_t size) {
    uint8_t bytes[8];
    for (size_t i = 0; i < size; i++)
        bytes[i] = (uint8_t)(number >> 8 * (size - 1 - i));
    append(text, bytes, size);
}

// The CRC-32 of zlib.
static inline uint32_t checksum(const uint8_t *at, size_t length) {
    static uint32_t table[256];
    for (uint32_t i = 0; i < 256 && table[255] == 0; i++) {
        table[i] = i;
        for (int bit = 0; bit < 8; bit++)
            table[i] = table[i] >> 1 ^ (table[i] & 1 ? 0xedb88320 : 0);
    }
    uint32_t sum = UINT32_MAX;
    for (size_t i = 0; i < length; i++)
        sum = sum >> 8 ^ table[(uint8_t)sum ^ at[i]];
    return ~sum;
}

static inline void append_head(struct text *text, size_t key, size_t signature, const uint8_t *archive) {
    append(text, "P2PL\2", 5);
    append_number(text, key, 2);
    append_number(text, signature, 2);
    append(text, archive, ARCHIVE);
}

// Appends a record: a call, its arguments, its answer, and what it wrote.
static inline void append_record(struct text *text, uint64_t number, const uint64_t *numbers, const struct bytes *slices,
    uint64_t answer, struct bytes out) {
    size_t begun = text->length;
    append_number(text, 0, 4);
    append_number(text, number, 1);
    for (const char *kind = forms[number]; *kind != 0; kind++) {
        if (*kind == 'n') {
            append_number(text, *numbers++, 8);
        } else if (*kind == 'b') {
            append_number(text, slices->length, 4);
            append(text, slices->at, slices->length);
            slices++;
        } else {
            append_number(text, out.length, 8);
        }
    }
    append_number(text, answer, 8);
    append(text, out.at, written(answer, out.length));
    size_t length = text->length;
    text->length = begun;
    append_number(text, length - begun - 4, 4);
    text->length = length;
}

// Ends the log that begins here.
static inline void append_last(struct text *text, size_t begun, uint64_t records) {
    uint32_t sum = checksum(text->at + begun, text->length - begun);
    append_number(text, LAST - 4, 4);
    append_number(text, WHOLE, 1);
    append_number(text, records, 8);
    append_number(text, sum, 4);
}

#endif
