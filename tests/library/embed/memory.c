/* Each call with its first, second and every further request for memory refused, and all after that one: the call returns
 * this and leaves the agent as it was, and if it is made again, it does what it does with enough memory. A merge hands out what it
 * accepted before: all its tries together hand out what one with memory does, and leave its lines. A repeat needs none. All of it
 * once more with an agent that keeps its events, and whose opening has some to restore.
 *
 * Linked with malloc, realloc and free wrapped: after all agents are closed, all memory has been freed. Prints `FAILED ..` for each that
 * doesn't hold, and `N passed, M failed`. */
#include "serf_agent.h"

#include <stdio.h>
#include <stdlib.h>
#include <string.h>

void *__real_malloc(size_t size);
void *__real_realloc(void *old, size_t size);
void __real_free(void *old);
void *__wrap_malloc(size_t size);
void *__wrap_realloc(void *old, size_t size);
void __wrap_free(void *old);

/* How many requests are granted from now on (below 0: all), how many there were, and how many blocks weren't given back. */
static long granted = -1, requests, live;

static bool is_refused(void) {
    requests++;
    if (granted == 0) {
        return true;
    }
    granted -= granted > 0;
    return false;
}

void *__wrap_malloc(size_t size) {
    void *new = is_refused() ? NULL : __real_malloc(size);
    live += new != NULL;
    return new;
}

void *__wrap_realloc(void *old, size_t size) {
    void *new = is_refused() ? NULL : __real_realloc(old, size);
    live += new != NULL && old == NULL;
    return new;
}

void __wrap_free(void *old) {
    live -= old != NULL;
    __real_free(old);
}

static int passed, failed;

static void holds(const char *what, long number, bool is) {
    passed += is;
    failed += !is;
    if (!is) {
        printf("FAILED %s, request %ld\n", what, number);
    }
}

static struct serf_agent_settings settings = {8, 8, 512, 1024, 1024, 8, 8, false, false};
static uint8_t deploy[256], ask[256], state[2048], more[2048];
static size_t deploy_len, ask_len, state_len, more_len;

static uint32_t open_one(struct serf_agent *agent) {
    static const char text[] = "clock: 3\n", kept[] = "clock: 3\nevent-clock: 01\n#event 1 78 79\nquery-clock: 01\n#query 1 9\n";
    const char *wanted = settings.keep_events ? kept : text;
    return serf_agent_open(agent, (const uint8_t *)"a", 1, &settings, (const uint8_t *)wanted, strlen(wanted));
}

static uint32_t fire(struct serf_agent *agent) {
    return serf_agent_fire(agent, (const uint8_t *)"deploy", 6, (const uint8_t *)"v1", 2, false);
}

static uint32_t fire_long(struct serf_agent *agent) {
    return serf_agent_fire(agent, (const uint8_t *)"rollback", 8, (const uint8_t *)"to the version of yesterday", 27, true);
}

static uint32_t query(struct serf_agent *agent) {
    struct serf_agent_params params = {.timeout = 1000, .want_ack = true};
    return serf_agent_query(agent, 5, 7, (const uint8_t *)"load", 4, NULL, 0, (const uint8_t *)"host", 4, &params);
}

static uint32_t respond(struct serf_agent *agent) {
    return serf_agent_respond(agent, 6, 1, (const uint8_t *)"0.12", 4);
}

static uint32_t forget(struct serf_agent *agent) {
    return serf_agent_forget_query(agent, 2);
}

static uint32_t receive_event(struct serf_agent *agent) {
    return serf_agent_receive(agent, 1, deploy, deploy_len, false);
}

static uint32_t receive_query(struct serf_agent *agent) {
    return serf_agent_receive(agent, 1, ask, ask_len, false);
}

static uint32_t merge(struct serf_agent *agent) {
    return serf_agent_merge(agent, state, state_len, true);
}

static uint32_t merge_more(struct serf_agent *agent) {
    return serf_agent_merge(agent, more, more_len, false);
}

static uint32_t close_due(struct serf_agent *agent) {
    size_t closed;
    return serf_agent_close_due(agent, 2000, &closed);
}

static uint32_t add_filter(struct serf_agent *agent) {
    return serf_agent_add_filter(agent, (const uint8_t *)"\0\221\241b", 4);
}

static uint32_t add_status(struct serf_agent *agent) {
    return serf_agent_add_status(agent, (const uint8_t *)"b", 1, 4);
}

static uint32_t add_left(struct serf_agent *agent) {
    return serf_agent_add_left(agent, (const uint8_t *)"c", 1);
}

static const struct {
    const char *name;
    uint32_t (*call)(struct serf_agent *);
} steps[] = {
    {"open", open_one},           {"fire", fire},
    {"receive an event", receive_event}, {"receive a query", receive_query},
    {"merge after a query", merge}, {"respond", respond},
    {"query", query},             {"forget", forget},
    {"save", serf_agent_save_member_clock},
    {"merge", merge_more},        {"close_due", close_due},
    {"add_filter", add_filter},   {"query with a filter", query},
    {"add_status", add_status},   {"add_left", add_left},
    {"local_state", serf_agent_local_state}, {"compact", serf_agent_compact},
};

/* All that C reads of an agent after a call. */
struct observed {
    struct serf_agent_clocks clocks;
    struct serf_agent_result result;
    struct serf_agent_bytes about;
    struct serf_agent_closed closed;
    struct serf_agent_pending_query handed[3];
    uint64_t deadline;
    size_t packet_len, ack_len, open;
    uint32_t handed_code[3];
    uint8_t pending[4096], packet[2048], ack[256];
};

/* The lines and the events that all calls left so far, in their order, and the largest time of these events. */
struct output {
    char lines[8192], events[4096];
    uint64_t latest;
};

static struct output output, expected;

/* Reads what the call left for the file, confirms that it is written, and then reads the result. */
static void settle(struct serf_agent *agent, struct observed *seen) {
    memset(seen, 0, sizeof *seen);
    serf_agent_pending(agent, &seen->about, seen->pending, sizeof seen->pending);
    serf_agent_flushed(agent);
    serf_agent_result(agent, &seen->result);
    serf_agent_clocks(agent, &seen->clocks);
    serf_agent_packet(agent, &seen->packet_len, seen->packet, sizeof seen->packet);
    serf_agent_ack(agent, &seen->ack_len, seen->ack, sizeof seen->ack);
    serf_agent_open_queries(agent, &seen->open);
    serf_agent_next_deadline(agent, &seen->deadline);
    serf_agent_closed(agent, 0, &seen->closed);
    for (uint64_t i = 0; i < 3; i++) {
        seen->handed_code[i] = serf_agent_pending_query(agent, i + 1, &seen->handed[i], NULL, 0, NULL, 0, NULL, 0, NULL, 0);
    }
}

/* The same, and appends what a try of a call left to what was left before. */
static void append_output(struct serf_agent *agent, struct observed *seen, struct output *output) {
    settle(agent, seen);
    size_t lines = strlen(output->lines);
    snprintf(output->lines + lines, sizeof output->lines - lines, "%.*s", (int)seen->about.len, seen->pending);
    for (size_t i = 0; i < seen->result.events; i++) {
        struct serf_agent_event event;
        uint8_t name[64] = {0}, payload[64] = {0};
        serf_agent_event(agent, i, &event, name, sizeof name - 1, payload, sizeof payload - 1);
        size_t events = strlen(output->events);
        snprintf(output->events + events, sizeof output->events - events, "%llu %s %s\n", (unsigned long long)event.time, name,
                 payload);
        output->latest = event.time > output->latest ? event.time : output->latest;
    }
}

/* The event clock of the last line that was written. */
static uint64_t clock_of(const struct output *output) {
    static const char begin[] = "event-clock: ";
    const char *last = NULL;
    for (const char *line = output->lines; (line = strstr(line, begin)) != NULL; line++) {
        last = line;
    }
    return last == NULL ? 0 : strtoull(last + strlen(begin), NULL, 10);
}

static void make_packets(void) {
    struct serf_agent other = {0};
    struct observed seen;
    open_one(&other);
    fire(&other);
    settle(&other, &seen);
    memcpy(deploy, seen.packet, deploy_len = seen.packet_len);
    fire(&other);
    settle(&other, &seen);
    query(&other);
    settle(&other, &seen);
    memcpy(ask, seen.packet, ask_len = seen.packet_len);
    serf_agent_local_state(&other);
    settle(&other, &seen);
    memcpy(state, seen.packet, state_len = seen.packet_len);
    for (int i = 0; i < 6; i++) {
        (i % 2 == 0 ? fire : fire_long)(&other);
        settle(&other, &seen);
    }
    serf_agent_local_state(&other);
    settle(&other, &seen);
    memcpy(more, seen.packet, more_len = seen.packet_len);
    serf_agent_close(&other);
}

static bool is_merge(size_t number) {
    return steps[number].call == merge || steps[number].call == merge_more;
}

static bool adds(size_t number) {
    return steps[number].call == add_filter || steps[number].call == add_status || steps[number].call == add_left;
}

static bool is_same(const void *one, const void *other, size_t len) {
    return memcmp(one, other, len) == 0;
}

/* After an allocation failure there is no result, and nothing is lost: a call that adds leaves the result of the call before. */
static bool is_as_before(size_t number, const struct observed *before, const struct observed *after) {
    static const struct serf_agent_result nothing;
    const struct serf_agent_result *result = adds(number) ? &before->result : &nothing;
    return is_same(&after->result, result, sizeof nothing) && is_same(&after->clocks, &before->clocks, sizeof after->clocks)
        && after->about.len == 0 && !after->about.replaces && after->open == before->open && after->deadline == before->deadline
        && is_same(after->handed_code, before->handed_code, sizeof after->handed_code)
        && is_same(after->handed, before->handed, sizeof after->handed);
}

/* A merge that couldn't begin leaves everything as it was. Otherwise there are lines up to the latest event that was handed out,
 * and no lines if none was. */
static bool is_complete(const struct observed *before, const struct observed *after, const struct output *output) {
    return after->result.kind == SERF_AGENT_RESULT_MERGED
        ? clock_of(output) >= output->latest && (after->result.events > 0 || after->about.len == 0)
        : after->result.kind == SERF_AGENT_RESULT_NOTHING && after->result.events == 0 && after->about.len == 0
            && is_same(&after->clocks, &before->clocks, sizeof after->clocks);
}

/* A step on an agent that runs out of memory at each of its requests in turn, and once on another agent in the same state. */
static void try_step(size_t number, struct serf_agent *agent, struct serf_agent *twin) {
    struct observed before, after, wanted;
    uint32_t code = SERF_AGENT_OUT_OF_MEMORY;
    long tried = 0, with_events = 0;
    settle(agent, &before);
    for (; code == SERF_AGENT_OUT_OF_MEMORY && tried < 1000; tried++) {
        granted = tried;
        code = steps[number].call(agent);
        granted = -1;
        append_output(agent, &after, &output);
        if (code == SERF_AGENT_OUT_OF_MEMORY) {
            with_events += after.result.events > 0;
            holds(steps[number].name, tried,
                  is_merge(number) ? is_complete(&before, &after, &output) : is_as_before(number, &before, &after));
            before = after;
        }
    }
    uint32_t other = steps[number].call(twin);
    append_output(twin, &wanted, &expected);
    holds(steps[number].name, tried, code == SERF_AGENT_OK && other == code);
    /* (of a merge all tries together) */
    holds(steps[number].name, tried,
                  is_merge(number) ? is_same(&after.clocks, &wanted.clocks, sizeof after.clocks) : is_same(&after, &wanted, sizeof after));
    holds(steps[number].name, tried, is_same(&output, &expected, sizeof output));
    if (steps[number].call == merge_more) {
        holds("a merge without memory hands out events", tried, with_events > 0);
    }
}

/* All steps of an agent, with events kept or not. */
static void try_steps(bool keep_events) {
    struct serf_agent agent = {0}, twin = {0};
    settings.keep_events = settings.ignore_old = keep_events;
    memset(&output, 0, sizeof output);
    memset(&expected, 0, sizeof expected);
    for (size_t i = 0; i < sizeof steps / sizeof *steps; i++) {
        try_step(i, &agent, &twin);
    }
    long before = requests;
    for (int i = 0; i < 1000; i++) {
        receive_event(&agent);
    }
    holds("a repeat takes no memory", requests - before, requests == before);
    serf_agent_close(&agent);
    serf_agent_close(&twin);
}

int main(void) {
    make_packets();
    try_steps(false);
    try_steps(true);
    holds("all is given back", live, live == 0);
    printf("%d passed, %d failed\n", passed, failed);
    return failed != 0;
}
