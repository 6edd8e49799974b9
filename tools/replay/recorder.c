// Stands before the exports of the library, and records the calls of each session. The logs are appended to a file for each
// process, of the folder that LOGS names, one after the other.
//
// The exports new, free and call of the library have names here that begin with library_. What is no call, BAD_CALL, has no
// place in a log, and changes nothing.
#define _GNU_SOURCE
#include "log.h"

#include <pthread.h>
#include <unistd.h>

// How many calls of a session are recorded. A log that has as many is whole: it says what came before.
#define MOST_CALLS 60000

struct session {
    struct session *next;
    const void *at;
    struct text log;
    uint64_t records;
};

static pthread_mutex_t lock = PTHREAD_MUTEX_INITIALIZER;
static struct session *sessions;

static void begin(const void *at, size_t key, size_t signature) {
    const uint8_t none[ARCHIVE] = {0};
    struct session *session = calloc(1, sizeof *session);
    if (session == NULL)
        abort();
    session->at = at;
    session->next = sessions;
    sessions = session;
    append_head(&session->log, key, signature, none);
}

static void put(struct session *session) {
    const char *folder = getenv("LOGS");
    char name[4096];
    if (session->records == 0 || folder == NULL)
        return;
    append_last(&session->log, 0, session->records);
    snprintf(name, sizeof name, "%s/%ld.logs", folder, (long)getpid());
    FILE *file = fopen(name, "ab");
    if (file == NULL || fwrite(session->log.at, 1, session->log.length, file) != session->log.length || fclose(file) != 0)
        abort();
}

static void end(const void *at) {
    struct session **place = &sessions;
    while ((*place)->at != at)
        place = &(*place)->next;
    struct session *session = *place;
    *place = session->next;
    put(session);
    free(session->log.at);
    free(session);
}

static void record(const void *at, uint64_t number, const uint64_t *numbers, const struct bytes *slices, uint64_t answer,
    struct bytes out) {
    struct session *session = sessions;
    while (session->at != at)
        session = session->next;
    if (session->records == MOST_CALLS)
        return;
    append_record(&session->log, number, numbers, slices, answer, out);
    session->records++;
}

// What the process leaves open is whole, too.
__attribute__((destructor)) static void end_all(void) {
    while (sessions != NULL)
        end(sessions->at);
}

#define PAIR(prefix, key, signature) \
    void library_##prefix##_new(struct prefix *at); \
    void library_##prefix##_free(struct prefix *at); \
    call_of library_##prefix##_call; \
    void prefix##_new(struct prefix *at) { \
        library_##prefix##_new(at); \
        pthread_mutex_lock(&lock); \
        begin(at, key, signature); \
        pthread_mutex_unlock(&lock); \
    } \
    void prefix##_free(struct prefix *at) { \
        pthread_mutex_lock(&lock); \
        end(at); \
        pthread_mutex_unlock(&lock); \
        library_##prefix##_free(at); \
    } \
    uint64_t prefix##_call(struct prefix *at, uint64_t number, const uint64_t *numbers, size_t numbers_length, \
        const uint8_t *first, size_t first_length, const uint8_t *second, size_t second_length, const uint8_t *third, \
        size_t third_length, uint8_t *out, size_t out_length) { \
        uint64_t answer = library_##prefix##_call(at, number, numbers, numbers_length, first, first_length, second, \
            second_length, third, third_length, out, out_length); \
        if (answer == P2P_SESSION_BAD_CALL) \
            return answer; \
        struct bytes slices[] = {{first, first_length}, {second, second_length}, {third, third_length}}; \
        pthread_mutex_lock(&lock); \
        record(at, number, numbers, slices, answer, (struct bytes){out, out_length}); \
        pthread_mutex_unlock(&lock); \
        return answer; \
    }
#include "pairs.h"
#undef PAIR

#ifdef CALL_PEER
// The call with one slice and no buffer.
#define PAIR(prefix, key, signature) \
    uint64_t prefix##_call_peer(struct prefix *at, uint64_t number, const uint64_t *numbers, size_t numbers_length, \
        const uint8_t *peer, size_t peer_length) { \
        uint64_t library_##prefix##_call_peer(struct prefix *, uint64_t, const uint64_t *, size_t, const uint8_t *, size_t); \
        uint64_t answer = library_##prefix##_call_peer(at, number, numbers, numbers_length, peer, peer_length); \
        if (answer == P2P_SESSION_BAD_CALL) \
            return answer; \
        struct bytes slices[] = {{peer, peer_length}, {NULL, 0}, {NULL, 0}}; \
        pthread_mutex_lock(&lock); \
        record(at, number, numbers, slices, answer, (struct bytes){NULL, 0}); \
        pthread_mutex_unlock(&lock); \
        return answer; \
    }
#include "pairs.h"
#undef PAIR
#endif
