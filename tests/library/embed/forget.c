/* Queries that a host will not answer: it forgets them, or close_due does once their deadline is past. And an empty handle.
 *
 * Prints a line `FAILED ..` for each answer that isn't as include/serf_agent.h says, and at the end `N passed, M failed`. */
#include "counts.h"
#include "serf_agent.h"

#include <string.h>

static const struct serf_agent_settings settings = {
    .event_buffer = 8, .query_buffer = 8, .event_limit = 512, .responders = 8, .per_time = 8,
};

static void written(struct serf_agent *agent) {
    is("flushed", serf_agent_flushed(agent), SERF_AGENT_OK);
}

/* The number of the query that the last call handed out. */
static uint64_t handed(struct serf_agent *agent) {
    struct serf_agent_result result = {0};
    written(agent);
    is("result", serf_agent_result(agent, &result), SERF_AGENT_OK);
    return result.handed;
}

/* Hands out a query of a timeout, at the moment 5. */
static uint64_t query(struct serf_agent *agent, int64_t timeout) {
    const struct serf_agent_params params = {.timeout = timeout};
    is("query", serf_agent_query(agent, 5, 7, (const uint8_t *)"load", 4, NULL, 0, NULL, 0, &params), SERF_AGENT_OK);
    return handed(agent);
}

static uint32_t reads(struct serf_agent *agent, uint64_t number) {
    struct serf_agent_pending_query found;
    return serf_agent_pending_query(agent, number, &found, NULL, 0, NULL, 0, NULL, 0, NULL, 0);
}

static void forgotten(struct serf_agent *agent) {
    is("the first query", query(agent, 1000), 1);
    is("the second query", query(agent, 1000), 2);
    is("forget the last", serf_agent_forget_query(agent, 2), SERF_AGENT_OK);
    is("it is forgotten", reads(agent, 2), SERF_AGENT_NOT_PENDING);
    is("it can't be answered", serf_agent_respond(agent, 6, 2, NULL, 0), SERF_AGENT_NOT_PENDING);
    is("forget it again", serf_agent_forget_query(agent, 2), SERF_AGENT_NOT_PENDING);
    is("forget none", serf_agent_forget_query(agent, 0), SERF_AGENT_NOT_PENDING);
    is("forget one that will come", serf_agent_forget_query(agent, 3), SERF_AGENT_NOT_PENDING);
    is("the first one waits", reads(agent, 1), SERF_AGENT_OK);
    is("the third query", query(agent, 1000), 3);
    is("respond", serf_agent_respond(agent, 6, 1, NULL, 0), SERF_AGENT_OK);
    is("forget one that was answered", serf_agent_forget_query(agent, 1), SERF_AGENT_NOT_PENDING);
    is("the third one waits", reads(agent, 3), SERF_AGENT_OK);
    is("forget the third", serf_agent_forget_query(agent, 3), SERF_AGENT_OK);
}

/* A query waits up to its deadline, whatever was handed out before and after it. */
static void past(struct serf_agent *agent) {
    size_t closed = 9;
    is("a long one", query(agent, 1000), 4);
    is("a short one", query(agent, 10), 5);
    is("another long one", query(agent, 1000), 6);
    is("close at the deadline", serf_agent_close_due(agent, 15, &closed), SERF_AGENT_OK);
    is("none is closed", closed, 0);
    is("the short one waits", reads(agent, 5), SERF_AGENT_OK);
    is("close past it", serf_agent_close_due(agent, 16, &closed), SERF_AGENT_OK);
    is("one is closed", closed, 1);
    is("the short one is forgotten", reads(agent, 5), SERF_AGENT_NOT_PENDING);
    is("it can't be answered", serf_agent_respond(agent, 16, 5, NULL, 0), SERF_AGENT_NOT_PENDING);
    is("the first long one waits", reads(agent, 4), SERF_AGENT_OK);
    is("so does the other", serf_agent_respond(agent, 16, 6, NULL, 0), SERF_AGENT_OK);
    is("close past all", serf_agent_close_due(agent, 2000, &closed), SERF_AGENT_OK);
    is("the rest is forgotten", serf_agent_forget_query(agent, 4), SERF_AGENT_NOT_PENDING);
    is("the next number", query(agent, 10), 7);
}

static bool is_filled(const void *at, size_t len) {
    for (size_t i = 0; i < len; i++) {
        if (((const uint8_t *)at)[i] != 0xa5) {
            return false;
        }
    }
    return true;
}

/* What an empty handle is given to fill stays as it was. */
static void empty(void) {
    struct serf_agent none = {0};
    union {
        struct serf_agent_bytes bytes;
        struct serf_agent_result result;
        struct serf_agent_event event;
        struct serf_agent_pending_query handed;
        struct serf_agent_clocks clocks;
        struct serf_agent_closed closed;
        struct serf_agent_response response;
        uint64_t time;
        size_t len;
        uint32_t code;
        bool should;
    } out;
    uint8_t text[4][8];
    memset(&out, 0xa5, sizeof out);
    memset(text, 0xa5, sizeof text);
    const uint32_t codes[] = {
        serf_agent_pending(&none, &out.bytes, text[0], 8),
        serf_agent_result(&none, &out.result),
        serf_agent_event(&none, 0, &out.event, text[0], 8, text[1], 8),
        serf_agent_query_time(&none, &out.time),
        serf_agent_packet(&none, &out.len, text[0], 8),
        serf_agent_ack(&none, &out.len, text[0], 8),
        serf_agent_pending_query(&none, 1, &out.handed, text[0], 8, text[1], 8, text[2], 8, text[3], 8),
        serf_agent_clocks(&none, &out.clocks),
        serf_agent_next_deadline(&none, &out.time),
        serf_agent_open_queries(&none, &out.len),
        serf_agent_close_due(&none, 0, &out.len),
        serf_agent_closed(&none, 0, &out.closed),
        serf_agent_closed_ack(&none, 0, 0, &out.len, text[0], 8),
        serf_agent_closed_response(&none, 0, 0, &out.response, text[0], 8, text[1], 8),
        serf_agent_should_compact(&none, 0, &out.should),
        serf_agent_next(&none, &out.code),
        serf_agent_outcomes(&none, &out.len),
        serf_agent_forget_query(&none, 1),
    };
    for (size_t i = 0; i < sizeof codes / sizeof *codes; i++) {
        is("an empty handle", codes[i], SERF_AGENT_EMPTY);
    }
    is("what it was given", is_filled(&out, sizeof out) && is_filled(text, sizeof text), true);
}

int main(void) {
    struct serf_agent agent = {0};
    is("open", serf_agent_open(&agent, (const uint8_t *)"a", 1, &settings, NULL, 0), SERF_AGENT_OK);
    forgotten(&agent);
    past(&agent);
    is("close", serf_agent_close(&agent), SERF_AGENT_OK);
    empty();
    printf("%d passed, %d failed\n", passed, failed);
    return failed != 0;
}
