/* Measures what a call through the handle costs, with the same calls, sizes and way of counting as serf_bench's `agents`; and what
 * it costs if its line is written to a file.
 *
 *     embedding FOLDER..
 *
 * Each FOLDER contains a snapshot for a while. It is in memory (/dev/shm) or on a disk. */
#define _GNU_SOURCE
#include "serf_agent.h"
#include "serf_agent_store.h"

#include <stdio.h>
#include <stdlib.h>
#include <time.h>
#include <unistd.h>

/* Counts the library's memory calls. */
static unsigned long taken;

static void *counted_malloc(size_t size) {
    taken++;
    return malloc(size);
}

static void *counted_realloc(void *old, size_t size) {
    taken++;
    return realloc(old, size);
}

#define malloc counted_malloc
#define realloc counted_realloc
#include "serf_agent_heap.c"
#undef malloc
#undef realloc

enum { SLOTS = 512, SAMPLES = 200, FLUSHED = 500, BURST = 64 };

static const struct serf_agent_settings settings = {SLOTS, SLOTS, 512, 1024, 1024, 8, 1024, false, false};
static uint8_t packets[SLOTS][64];
static size_t lens[SLOTS];

static double now(void) {
    struct timespec at;
    clock_gettime(CLOCK_MONOTONIC, &at);
    return 1e9 * (double)at.tv_sec + (double)at.tv_nsec;
}

static void must(bool holds, const char *what) {
    if (!holds) {
        fprintf(stderr, "embedding: %s\n", what);
        exit(1);
    }
}

static void open_agent(struct serf_agent *agent, const char *name) {
    must(serf_agent_open(agent, (const uint8_t *)name, 1, &settings, NULL, 0) == SERF_AGENT_OK, "open");
}

/* Discards what the call left for the file, and confirms that it was written. */
static void forget(struct serf_agent *agent) {
    static uint8_t room[4096];
    struct serf_agent_bytes about;
    serf_agent_pending(agent, &about, room, sizeof room);
    serf_agent_flushed(agent);
}

static bool fire(struct serf_agent *agent, size_t number) {
    bool done = serf_agent_fire(agent, (const uint8_t *)"deploy", 6, (const uint8_t *)"v0", 2, false) == SERF_AGENT_OK;
    forget(agent);
    return done && serf_agent_packet(agent, &lens[number], packets[number], sizeof packets[number]) == SERF_AGENT_OK;
}

static bool receive_fresh(struct serf_agent *agent, size_t number) {
    struct serf_agent_event event;
    uint8_t name[64], payload[64];
    serf_agent_receive(agent, 0, packets[number], lens[number], false);
    forget(agent);
    return serf_agent_event(agent, 0, &event, name, sizeof name, payload, sizeof payload) == SERF_AGENT_OK;
}

/* Makes the calls of a burst, beginning with a number. Its outcomes are read after its lines are settled. */
static void begin_burst(struct serf_agent *agent, size_t first) {
    for (size_t i = 0; i < BURST; i++) {
        must(serf_agent_burst_receive(agent, 0, packets[first + i], lens[first + i], false) == SERF_AGENT_OK, "a call of a burst");
    }
}

static void read_burst(struct serf_agent *agent) {
    struct serf_agent_event event;
    uint8_t name[64], payload[64];
    uint32_t answered;
    size_t events = 0;
    while (serf_agent_next(agent, &answered) == SERF_AGENT_OK) {
        events += serf_agent_event(agent, 0, &event, name, sizeof name, payload, sizeof payload) == SERF_AGENT_OK;
    }
    must(events == BURST, "an event of a burst");
}

/* Makes a call for each slot, in bursts. */
static bool receive_burst(struct serf_agent *agent, size_t number) {
    if (number % BURST == 0) {
        begin_burst(agent, number);
        forget(agent);
        read_burst(agent);
    }
    return true;
}

static bool receive_repeated(struct serf_agent *agent, size_t number) {
    return serf_agent_receive(agent, 0, packets[number], lens[number], false) == SERF_AGENT_OK;
}

static bool is_seen(struct serf_agent *agent, size_t number) {
    struct serf_agent_result result;
    (void)number;
    return serf_agent_result(agent, &result) == SERF_AGENT_OK && result.reason == SERF_AGENT_SEEN;
}

static bool read_clocks(struct serf_agent *agent, size_t number) {
    struct serf_agent_clocks clocks;
    (void)number;
    return serf_agent_clocks(agent, &clocks) == SERF_AGENT_OK;
}

/* Returns the time of a sample, which has a call for each slot. */
static double sample(struct serf_agent *agent, bool (*call)(struct serf_agent *, size_t)) {
    double began = now();
    size_t done = 0;
    for (size_t i = 0; i < SLOTS; i++) {
        done += call(agent, i);
    }
    double spent = now() - began;
    must(done == SLOTS, "a call did something else");
    return spent;
}

static double smaller(double one, double other) {
    return one < other ? one : other;
}

static void bench_calls(void) {
    struct serf_agent firing = {0}, one = {0}, bursting = {0};
    double fired = 1e18, fresh = 1e18, repeated = 1e18, seen = 1e18, clocks = 1e18, bursts = 1e18;
    unsigned long for_repeats = 0;
    open_agent(&firing, "b");
    open_agent(&one, "a");
    open_agent(&bursting, "d");
    for (int i = 0; i < SAMPLES; i++) {
        fired = smaller(fired, sample(&firing, fire));
        fresh = smaller(fresh, sample(&one, receive_fresh));
        bursts = smaller(bursts, sample(&bursting, receive_burst));
        unsigned long before = taken;
        repeated = smaller(repeated, sample(&one, receive_repeated));
        for_repeats += taken - before;
        seen = smaller(seen, sample(&one, is_seen));
        clocks = smaller(clocks, sample(&one, read_clocks));
    }
    printf("handle: receive a repeated event's packet, 1 event a time: %.1f ns\n", repeated / SLOTS);
    printf("handle: read the result: %.1f ns\n", seen / SLOTS);
    printf("handle: receive a fresh event's packet, 1 event a time: %.1f ns\n", fresh / SLOTS);
    printf("handle: receive a fresh event's packet in a burst of %d: %.1f ns\n", BURST, bursts / SLOTS);
    printf("handle: fire an event: %.1f ns\n", fired / SLOTS);
    printf("handle: read the clocks: %.1f ns\n", clocks / SLOTS);
    printf("handle: memory taken in %d repeats: %lu times\n", SAMPLES * SLOTS, for_repeats);
    must(for_repeats == 0, "a repeat takes memory");
    serf_agent_close(&firing);
    serf_agent_close(&one);
    serf_agent_close(&bursting);
}

/* Only appends and flushes a line of the usual length. */
static void bench_flush(const char *folder) {
    struct serf_agent_store store = {0};
    char path[4096];
    double spent = 1e18;
    snprintf(path, sizeof path, "%s/flush.snapshot", folder);
    must(serf_agent_store_open(&store, path) == SERF_AGENT_STORE_OK, path);
    for (int i = 0; i < 5; i++) {
        double began = now();
        for (size_t k = 0; k < FLUSHED; k++) {
            must(serf_agent_store_append(&store, (const uint8_t *)"event-clock: 1234\n", 18) == SERF_AGENT_STORE_OK, path);
        }
        spent = smaller(spent, now() - began);
    }
    printf("handle: a line flushed in %s, and nothing else: %.0f ns\n", folder, spent / FLUSHED);
    serf_agent_store_close(&store);
    unlink(path);
}

/* Bursts with their lines flushed. It prints the minimum of five samples. */
static void bench_bursts(const char *folder) {
    double spent = 1e18;
    char path[4096];
    snprintf(path, sizeof path, "%s/bursts.snapshot", folder);
    for (int i = 0; i < 5; i++) {
        struct serf_agent_store store = {0};
        struct serf_agent one = {0};
        must(serf_agent_store_open(&store, path) == SERF_AGENT_STORE_OK, path);
        open_agent(&one, "c");
        double began = now();
        for (size_t first = 0; first + BURST <= SLOTS; first += BURST) {
            begin_burst(&one, first);
            must(serf_agent_store_settle(&store, &one) == SERF_AGENT_STORE_OK, path);
            read_burst(&one);
        }
        spent = smaller(spent, now() - began);
        serf_agent_close(&one);
        serf_agent_store_close(&store);
        unlink(path);
    }
    printf("handle: receive a fresh event's packet in a burst of %d, flushed in %s: %.0f ns\n", BURST, folder, spent / SLOTS);
}

static void bench_file(const char *folder) {
    struct serf_agent_store store = {0};
    struct serf_agent one = {0};
    char path[4096];
    snprintf(path, sizeof path, "%s/bench.snapshot", folder);
    must(serf_agent_store_open(&store, path) == SERF_AGENT_STORE_OK, path);
    open_agent(&one, "c");
    double began = now();
    for (size_t i = 0; i < FLUSHED; i++) {
        serf_agent_receive(&one, 1, packets[i], lens[i], false);
        must(serf_agent_store_settle(&store, &one) == SERF_AGENT_STORE_OK, path);
    }
    printf("handle: receive a fresh event's packet, its line flushed in %s: %.0f ns\n", folder, (now() - began) / FLUSHED);
    serf_agent_close(&one);
    serf_agent_store_close(&store);
    unlink(path);
}

/* The text that an agent leaves if it keeps its events: an event of each time, whose texts together have 512 bytes. */
static size_t kept_text(char *text) {
    size_t len = 0;
    for (int time = 1; time <= SLOTS; time++) {
        len += (size_t)sprintf(text + len, "event-clock: 0%d\n#event %d 6465706c6f79 ", time, time);
        for (int i = 0; i < 506; i++) {
            len += (size_t)sprintf(text + len, "%02x", (time + i) & 255);
        }
        text[len++] = '\n';
    }
    return len;
}

/* Opens an agent on this text. It prints the minimum of many samples. */
static void bench_opening(void) {
    static char text[SLOTS * 1200];
    struct serf_agent_settings keeping = settings;
    size_t len = kept_text(text);
    double spent = 1e18;
    keeping.keep_events = true;
    for (int i = 0; i < 20; i++) {
        struct serf_agent one = {0};
        double began = now();
        must(serf_agent_open(&one, (const uint8_t *)"e", 1, &keeping, (const uint8_t *)text, len) == SERF_AGENT_OK, "open");
        spent = smaller(spent, now() - began);
        serf_agent_close(&one);
    }
    printf("handle: open a file of %d kept events of 512 bytes: %.0f ns\n", SLOTS, spent);
}

int main(int count, char **words) {
    bench_calls();
    bench_opening();
    for (int i = 1; i < count; i++) {
        bench_flush(words[i]);
        bench_file(words[i]);
        bench_bursts(words[i]);
    }
    return 0;
}
