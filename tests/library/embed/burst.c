/* Bursts on handles that are empty or full of pending bytes, mixed with other calls, and of any length and any bytes.
 *
 * Prints a line `FAILED ..` for each answer that isn't as include/serf_agent.h says, and at the end `N passed, M failed`. */
#include "serf_agent.h"

#include <stdio.h>
#include <stdlib.h>
#include <string.h>

static int passed, failed;

static void is(const char *what, uint64_t found, uint64_t wanted) {
    if (found == wanted) {
        passed++;
    } else {
        failed++;
        printf("FAILED %s: %llu instead of %llu\n", what, (unsigned long long)found, (unsigned long long)wanted);
    }
}

static const struct serf_agent_settings settings = {8, 8, 512, 1024, 1024, 8, 8, false, false};
static const struct serf_agent_params asked = {.timeout = 1000, .want_ack = true};
static uint8_t room[1 << 16];

struct packet {
    uint8_t bytes[256];
    size_t len;
};

static void open_one(struct serf_agent *agent, const char *name, const char *text) {
    is("open", serf_agent_open(agent, (const uint8_t *)name, strlen(name), &settings, (const uint8_t *)text, strlen(text)), SERF_AGENT_OK);
}

static uint32_t fire(struct serf_agent *agent, const char *name) {
    return serf_agent_burst_fire(agent, (const uint8_t *)name, strlen(name), NULL, 0, false);
}

static uint32_t query(struct serf_agent *agent) {
    return serf_agent_burst_query(agent, 5, 7, (const uint8_t *)"q", 1, NULL, 0, NULL, 0, &asked);
}

static size_t pending_length(struct serf_agent *agent) {
    struct serf_agent_bytes about = {0};
    memset(room, 0, sizeof room);
    is("pending", serf_agent_pending(agent, &about, room, sizeof room), SERF_AGENT_OK);
    return about.len;
}

static size_t outcomes(struct serf_agent *agent) {
    size_t total = 77;
    is("outcomes", serf_agent_outcomes(agent, &total), SERF_AGENT_OK);
    return total;
}

static uint32_t kind(struct serf_agent *agent) {
    struct serf_agent_result result = {0};
    is("result", serf_agent_result(agent, &result), SERF_AGENT_OK);
    return result.kind;
}

/* The next outcome: the code of its call, and the result. */
static void next(struct serf_agent *agent, uint32_t wanted, uint32_t wanted_kind) {
    uint32_t answered = 77;
    is("next", serf_agent_next(agent, &answered), SERF_AGENT_OK);
    is("its code", answered, wanted);
    is("its kind", kind(agent), wanted_kind);
}

static void none_next(struct serf_agent *agent, uint32_t wanted) {
    uint32_t answered = 77;
    is("no next", serf_agent_next(agent, &answered), wanted);
    is("its code stays", answered, 77);
}

/* Each call of a burst answers this, and so do next and outcomes. */
static void each(struct serf_agent *agent, uint32_t wanted) {
    uint8_t byte = 0;
    size_t total = 77;
    is("burst_receive", serf_agent_burst_receive(agent, 1, &byte, 1, false), wanted);
    is("burst_fire", fire(agent, "x"), wanted);
    is("add_filter", serf_agent_add_filter(agent, &byte, 1), wanted);
    is("burst_query", query(agent), wanted);
    is("outcomes", serf_agent_outcomes(agent, &total), wanted);
    none_next(agent, wanted);
    is("outcomes stay", total, 77);
}

static void make_packets(struct packet *events, size_t count) {
    struct serf_agent other = {0};
    char name[8];
    open_one(&other, "b", "");
    for (size_t i = 0; i < count; i++) {
        snprintf(name, sizeof name, "e%zu", i);
        is("fire", serf_agent_fire(&other, (const uint8_t *)name, strlen(name), NULL, 0, false), SERF_AGENT_OK);
        is("flushed", serf_agent_flushed(&other), SERF_AGENT_OK);
        is("packet", serf_agent_packet(&other, &events[i].len, events[i].bytes, sizeof events[i].bytes), SERF_AGENT_OK);
    }
    serf_agent_close(&other);
}

static void empty_handles(void) {
    struct serf_agent agent = {0};
    each(&agent, SERF_AGENT_EMPTY);
    open_one(&agent, "a", "");
    fire(&agent, "x");
    is("close with outcomes", serf_agent_close(&agent), SERF_AGENT_OK);
    each(&agent, SERF_AGENT_EMPTY);
    open_one(&agent, "a", "");
    is("none is left", outcomes(&agent), 0);
    none_next(&agent, SERF_AGENT_NOTHING);
    serf_agent_close(&agent);
}

/* A host that never confirms the lines: it reads nothing, however often it tries. */
static void never_written(const struct packet *events) {
    struct serf_agent agent = {0};
    struct serf_agent_event event = {.time = 77};
    struct serf_agent_clocks clocks;
    size_t len = 77;
    open_one(&agent, "a", "");
    for (int i = 0; i < 100; i++) {
        is("burst_receive", serf_agent_burst_receive(&agent, 1, events[i % 4].bytes, events[i % 4].len, false), SERF_AGENT_OK);
        is("they wait", outcomes(&agent), (uint64_t)i + 1);
        none_next(&agent, SERF_AGENT_PENDING);
        is("no event", serf_agent_event(&agent, 0, &event, room, sizeof room, NULL, 0), SERF_AGENT_PENDING);
        is("no clock", serf_agent_clocks(&agent, &clocks), SERF_AGENT_PENDING);
        is("no packet", serf_agent_packet(&agent, &len, room, sizeof room), SERF_AGENT_PENDING);
        is("nothing was given", kind(&agent), SERF_AGENT_RESULT_NOTHING);
        is("no other call", serf_agent_receive(&agent, 1, events[0].bytes, events[0].len, false), SERF_AGENT_PENDING);
    }
    is("nothing was read", event.time == 77 && len == 77, 1);
    is("all lines", pending_length(&agent), 60);
    is("in order", (uint64_t)strcmp((char *)room, "event-clock: 1\nevent-clock: 2\nevent-clock: 3\nevent-clock: 4\n"), 0);
    serf_agent_close(&agent);
}

/* Outcomes in the order of their calls, errors among them, after the result of a call before the burst. */
static void mixed(const struct packet *events) {
    struct serf_agent agent = {0};
    struct serf_agent_event event;
    struct serf_agent_result result;
    struct serf_agent_clocks clocks;
    open_one(&agent, "a", "");
    is("a call before", serf_agent_receive(&agent, 1, events[0].bytes, events[0].len, false), SERF_AGENT_OK);
    is("a fault", serf_agent_burst_receive(&agent, 1, room, 0, false), SERF_AGENT_NO_MESSAGE);
    is("an event", serf_agent_burst_receive(&agent, 1, events[1].bytes, events[1].len, false), SERF_AGENT_OK);
    is("a query", query(&agent), SERF_AGENT_OK);
    is("too large", serf_agent_burst_fire(&agent, room, 600, NULL, 0, false), SERF_AGENT_TOO_LARGE);
    is("another query", query(&agent), SERF_AGENT_OK);
    is("fired", fire(&agent, "x"), SERF_AGENT_OK);
    is("a repeat", serf_agent_burst_receive(&agent, 1, events[1].bytes, events[1].len, false), SERF_AGENT_OK);
    is("the result of the call before", kind(&agent), SERF_AGENT_RESULT_EVENT);
    is("they wait", outcomes(&agent), 7);
    pending_length(&agent);
    is("lines", (uint64_t)strcmp((char *)room, "event-clock: 1\nevent-clock: 2\nquery-clock: 1\nquery-clock: 2\nevent-clock: 3\n"), 0);
    is("flushed", serf_agent_flushed(&agent), SERF_AGENT_OK);
    is("its event", serf_agent_event(&agent, 0, &event, room, sizeof room, NULL, 0), SERF_AGENT_OK);
    is("its time", event.time, 1);
    next(&agent, SERF_AGENT_NO_MESSAGE, SERF_AGENT_RESULT_NOTHING);
    is("no event", serf_agent_event(&agent, 0, &event, room, sizeof room, NULL, 0), SERF_AGENT_NOTHING);
    next(&agent, SERF_AGENT_OK, SERF_AGENT_RESULT_EVENT);
    is("its event", serf_agent_event(&agent, 0, &event, room, sizeof room, NULL, 0), SERF_AGENT_OK);
    is("its time", event.time, 2);
    next(&agent, SERF_AGENT_OK, SERF_AGENT_RESULT_QUERY_FIRED);
    serf_agent_result(&agent, &result);
    is("the first number", result.handed, 1);
    next(&agent, SERF_AGENT_TOO_LARGE, SERF_AGENT_RESULT_NOTHING);
    is("a call between", serf_agent_respond(&agent, 5, 1, NULL, 0), SERF_AGENT_OK);
    is("its result", kind(&agent), SERF_AGENT_RESULT_REPLY);
    is("the others wait", outcomes(&agent), 3);
    next(&agent, SERF_AGENT_OK, SERF_AGENT_RESULT_QUERY_FIRED);
    serf_agent_result(&agent, &result);
    is("the second number", result.handed, 2);
    is("compact between", serf_agent_compact(&agent), SERF_AGENT_OK);
    none_next(&agent, SERF_AGENT_PENDING);
    is("and one more", fire(&agent, "y"), SERF_AGENT_OK);
    pending_length(&agent);
    const char *third = strstr((char *)room, "event-clock: 3\n"), *fourth = strstr((char *)room, "event-clock: 4\n");
    is("the whole text", third != NULL && fourth > third, 1);
    is("flushed", serf_agent_flushed(&agent), SERF_AGENT_OK);
    is("a query waits on", serf_agent_respond(&agent, 5, 2, NULL, 0), SERF_AGENT_OK);
    next(&agent, SERF_AGENT_OK, SERF_AGENT_RESULT_EVENT_FIRED);
    next(&agent, SERF_AGENT_OK, SERF_AGENT_RESULT_IGNORED);
    next(&agent, SERF_AGENT_OK, SERF_AGENT_RESULT_EVENT_FIRED);
    is("none waits", outcomes(&agent), 0);
    none_next(&agent, SERF_AGENT_NOTHING);
    is("nothing is given then", kind(&agent), SERF_AGENT_RESULT_NOTHING);
    is("clocks", serf_agent_clocks(&agent, &clocks), SERF_AGENT_OK);
    is("the clock", clocks.event, 5);
    serf_agent_close(&agent);
}

/* Packets that fail move no clock, and repeats leave no line: nothing has to be written before they are read. */
static void nothing_to_write(const struct packet *events) {
    struct serf_agent agent = {0};
    struct serf_agent_clocks before, after;
    open_one(&agent, "a", "event-clock: 50\n");
    is("clocks", serf_agent_clocks(&agent, &before), SERF_AGENT_OK);
    is("an old event", serf_agent_burst_receive(&agent, 1, events[0].bytes, events[0].len, false), SERF_AGENT_OK);
    is("a cut one", serf_agent_burst_receive(&agent, 1, events[0].bytes, events[0].len - 1, false), SERF_AGENT_NO_MESSAGE);
    const uint8_t *no_time = (const uint8_t *)"\003\201\245LTime\317\377\377\377\377\377\377\377\377";
    is("no time is one", serf_agent_burst_receive(&agent, 1, no_time, 16, false), SERF_AGENT_NO_MESSAGE);
    is("nothing is pending", pending_length(&agent), 0);
    next(&agent, SERF_AGENT_OK, SERF_AGENT_RESULT_IGNORED);
    next(&agent, SERF_AGENT_NO_MESSAGE, SERF_AGENT_RESULT_NOTHING);
    next(&agent, SERF_AGENT_NO_MESSAGE, SERF_AGENT_RESULT_NOTHING);
    is("clocks", serf_agent_clocks(&agent, &after), SERF_AGENT_OK);
    is("no clock moved", (uint64_t)memcmp(&before, &after, sizeof after), 0);
    serf_agent_close(&agent);
}

/* A burst compared with the same calls one by one: the same outcomes, and the same lines. */
static void beside_single_calls(size_t count) {
    struct serf_agent agent = {0}, twin = {0};
    static uint8_t lines[1 << 16], wanted[1 << 16];
    static uint32_t codes[100], kinds[100];
    size_t len = 0;
    open_one(&agent, "a", "");
    open_one(&twin, "a", "");
    for (size_t i = 0; i < count; i++) {
        struct serf_agent_result result = {0};
        char name[1024];
        size_t size = 1 + i * 37 % 600;
        memset(name, 'x', sizeof name);
        codes[i] = serf_agent_fire(&twin, (const uint8_t *)name, size, NULL, 0, false);
        len += pending_length(&twin);
        strcat((char *)wanted, (char *)room);
        serf_agent_flushed(&twin);
        serf_agent_result(&twin, &result);
        kinds[i] = result.kind;
        is("the same code", serf_agent_burst_fire(&agent, (const uint8_t *)name, size, NULL, 0, false), codes[i]);
    }
    is("as many bytes", pending_length(&agent), len);
    memcpy(lines, room, sizeof lines);
    is("the same lines", (uint64_t)memcmp(lines, wanted, len), 0);
    is("flushed", serf_agent_flushed(&agent), SERF_AGENT_OK);
    for (size_t i = 0; i < count; i++) {
        next(&agent, codes[i], kinds[i]);
    }
    none_next(&agent, SERF_AGENT_NOTHING);
    serf_agent_close(&agent);
    serf_agent_close(&twin);
}

int main(void) {
    static struct packet events[4];
    make_packets(events, 4);
    empty_handles();
    never_written(events);
    mixed(events);
    nothing_to_write(events);
    beside_single_calls(100);
    printf("%d passed, %d failed\n", passed, failed);
    return failed != 0;
}
