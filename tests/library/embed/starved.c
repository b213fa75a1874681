/* Functions between a host and the library, so that the host's first merge, its first query with filters, its first state with
 * members and its first burst run out of memory: SERF_AGENT_GRANTED says how many requests each of them is granted. The second
 * query and the second state of this kind are granted none. All other calls are granted all. A burst lasts until its last outcome
 * is read. The library's own calls have other names then (starved.py renames them). */
#include "serf_agent.h"

#include <stdlib.h>

struct tried {
    bool ok;
    void *place;
};

/* The host's calls for memory, and the library's calls. */
struct tried rattle_alloc(size_t size, size_t align);
struct tried rattle_realloc(void *old, size_t kept, size_t size, size_t align);
uint32_t whole_merge(struct serf_agent *handle, const uint8_t *packet, size_t packet_len, bool is_join);
uint32_t whole_add_filter(struct serf_agent *handle, const uint8_t *filter, size_t filter_len);
uint32_t whole_query(struct serf_agent *handle, uint64_t now, uint32_t id, const uint8_t *name, size_t name_len,
                     const uint8_t *payload, size_t payload_len, const uint8_t *addr, size_t addr_len,
                     const struct serf_agent_params *params);
uint32_t whole_add_status(struct serf_agent *handle, const uint8_t *name, size_t name_len, uint64_t status_time);
uint32_t whole_add_left(struct serf_agent *handle, const uint8_t *name, size_t name_len);
uint32_t whole_local_state(struct serf_agent *handle);
uint32_t whole_burst_receive(struct serf_agent *handle, uint64_t now, const uint8_t *packet, size_t packet_len,
                             bool tags_pass);
uint32_t whole_burst_fire(struct serf_agent *handle, const uint8_t *name, size_t name_len, const uint8_t *payload,
                          size_t payload_len, bool coalesce);
uint32_t whole_burst_query(struct serf_agent *handle, uint64_t now, uint32_t id, const uint8_t *name, size_t name_len,
                           const uint8_t *payload, size_t payload_len, const uint8_t *addr, size_t addr_len,
                           const struct serf_agent_params *params);
uint32_t whole_next(struct serf_agent *handle, uint32_t *answered);

/* What the library calls in their place. */
struct tried starved_alloc(size_t size, size_t align);
struct tried starved_realloc(void *old, size_t kept, size_t size, size_t align);

/* How many requests are granted from now on; below 0: all. */
static long granted = -1;
static char nothing;

static bool is_refused(void) {
    bool is = granted == 0;
    granted -= granted > 0;
    return is;
}

struct tried starved_alloc(size_t size, size_t align) {
    return is_refused() ? (struct tried){false, &nothing} : rattle_alloc(size, align);
}

struct tried starved_realloc(void *old, size_t kept, size_t size, size_t align) {
    return is_refused() ? (struct tried){false, &nothing} : rattle_realloc(old, kept, size, align);
}

/* What a host tries of one kind: all the calls up to the one that is done, or that runs out of memory. */
struct tries {
    long second; /* how many requests the second is granted */
    int begun;
    bool is_under_way;
};

static struct tries merges = {.second = -1}, queries = {.second = 0}, states = {.second = 0}, bursts = {.second = -1};

static void begin(struct tries *tries) {
    if (!tries->is_under_way) {
        const char *words = getenv("SERF_AGENT_GRANTED");
        long first = words == NULL ? -1 : atol(words);
        granted = tries->begun == 0 ? first : tries->begun == 1 ? tries->second : -1;
        tries->begun++;
        tries->is_under_way = true;
    }
}

static uint32_t ended(struct tries *tries, uint32_t code, bool is_last) {
    if (code == SERF_AGENT_OUT_OF_MEMORY || (is_last && code == SERF_AGENT_OK)) {
        tries->is_under_way = false;
        granted = -1;
    }
    return code;
}

uint32_t serf_agent_merge(struct serf_agent *handle, const uint8_t *packet, size_t packet_len, bool is_join) {
    begin(&merges);
    return ended(&merges, whole_merge(handle, packet, packet_len, is_join), true);
}

/* (a driver that makes bursts makes no query by itself) */
uint32_t serf_agent_add_filter(struct serf_agent *handle, const uint8_t *filter, size_t filter_len) {
    struct tries *tries = bursts.begun > 0 ? &bursts : &queries;
    begin(tries);
    return ended(tries, whole_add_filter(handle, filter, filter_len), false);
}

uint32_t serf_agent_query(struct serf_agent *handle, uint64_t now, uint32_t id, const uint8_t *name, size_t name_len,
                          const uint8_t *payload, size_t payload_len, const uint8_t *addr, size_t addr_len,
                          const struct serf_agent_params *params) {
    if (queries.begun > 0) {
        begin(&queries);
    }
    uint32_t code = whole_query(handle, now, id, name, name_len, payload, payload_len, addr, addr_len, params);
    return ended(&queries, code, true);
}

uint32_t serf_agent_add_status(struct serf_agent *handle, const uint8_t *name, size_t name_len, uint64_t status_time) {
    begin(&states);
    return ended(&states, whole_add_status(handle, name, name_len, status_time), false);
}

uint32_t serf_agent_add_left(struct serf_agent *handle, const uint8_t *name, size_t name_len) {
    begin(&states);
    return ended(&states, whole_add_left(handle, name, name_len), false);
}

uint32_t serf_agent_local_state(struct serf_agent *handle) {
    if (states.begun > 0) {
        begin(&states);
    }
    return ended(&states, whole_local_state(handle), true);
}

uint32_t serf_agent_burst_receive(struct serf_agent *handle, uint64_t now, const uint8_t *packet, size_t packet_len,
                                  bool tags_pass) {
    begin(&bursts);
    return ended(&bursts, whole_burst_receive(handle, now, packet, packet_len, tags_pass), false);
}

uint32_t serf_agent_burst_fire(struct serf_agent *handle, const uint8_t *name, size_t name_len, const uint8_t *payload,
                               size_t payload_len, bool coalesce) {
    begin(&bursts);
    return ended(&bursts, whole_burst_fire(handle, name, name_len, payload, payload_len, coalesce), false);
}

uint32_t serf_agent_burst_query(struct serf_agent *handle, uint64_t now, uint32_t id, const uint8_t *name, size_t name_len,
                                const uint8_t *payload, size_t payload_len, const uint8_t *addr, size_t addr_len,
                                const struct serf_agent_params *params) {
    begin(&bursts);
    uint32_t code = whole_burst_query(handle, now, id, name, name_len, payload, payload_len, addr, addr_len, params);
    return ended(&bursts, code, false);
}

/* (after an allocation failure no burst is under way any more) */
uint32_t serf_agent_next(struct serf_agent *handle, uint32_t *answered) {
    uint32_t code = whole_next(handle, answered);
    size_t left = 0;
    serf_agent_outcomes(handle, &left);
    return ended(&bursts, code, left == 0);
}
