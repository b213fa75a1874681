/* Agents that keep their events: what a call appends, a restart that continues, torn texts, lives without the setting, compactions.
 *
 * Prints a line `FAILED ..` for each answer that isn't as include/serf_agent.h says, and at the end `N passed, M failed`. */
#include "counts.h"
#include "serf_agent.h"

#include <string.h>

/* JOINED: the other agent's state is of when it had fired so many events. */
enum { SLOTS = 8, EVENTS = 12, JOINED = 3, ROOM = 4096 };

/* A host whose file is in memory. */
struct host {
    struct serf_agent agent;
    char text[ROOM];
    size_t len;
};

static struct packet {
    uint8_t bytes[512];
    size_t len;
} packets[EVENTS + 1], state;

static struct serf_agent_settings settings(bool keep_events) {
    return (struct serf_agent_settings){
        .event_buffer = SLOTS, .query_buffer = SLOTS, .event_limit = 512, .responders = 8, .per_time = 8, .keep_events = keep_events,
    };
}

static void same(const char *what, const char *found, const char *wanted) {
    if (strcmp(found, wanted) == 0) {
        passed++;
    } else {
        failed++;
        printf("FAILED %s: \"%s\" instead of \"%s\"\n", what, found, wanted);
    }
}

/* What a call left for the file is one text, which is appended, or replaces what is there: in one flush. */
static void settled(const char *what, struct host *host, bool replaces, const char *wanted) {
    struct serf_agent_bytes about = {0};
    char bytes[ROOM] = "";
    is(what, serf_agent_pending(&host->agent, &about, (uint8_t *)bytes, sizeof bytes - 1), SERF_AGENT_OK);
    same(what, bytes, wanted);
    is(what, about.replaces, replaces);
    host->len = replaces ? 0 : host->len;
    memcpy(host->text + host->len, bytes, about.len + 1);
    host->len += about.len;
    is(what, serf_agent_flushed(&host->agent), SERF_AGENT_OK);
}

/* The agent's process is killed, and begins again on what the file holds. */
static void restart(struct host *host, bool keep_events, const char *sealed) {
    struct serf_agent_settings wanted = settings(keep_events);
    serf_agent_close(&host->agent);
    is("open", serf_agent_open(&host->agent, (const uint8_t *)"a", 1, &wanted, (const uint8_t *)host->text, host->len), SERF_AGENT_OK);
    settled("open", host, false, sealed);
}

/* The host has this text in its file, whatever it had before. */
static void start(struct host *host, bool keep_events, const char *text, const char *sealed) {
    host->len = strlen(text);
    memcpy(host->text, text, host->len + 1);
    restart(host, keep_events, sealed);
}

/* The event of this time comes: it is handed out, and this is appended. */
static void is_new(struct host *host, uint64_t time, const char *wanted) {
    struct serf_agent_result result = {0};
    struct serf_agent_event event = {0};
    is("receive", serf_agent_receive(&host->agent, 1, packets[time].bytes, packets[time].len, false), SERF_AGENT_OK);
    settled("a new event", host, false, wanted);
    is("result", serf_agent_result(&host->agent, &result), SERF_AGENT_OK);
    is("a new event", result.kind, SERF_AGENT_RESULT_EVENT);
    is("event", serf_agent_event(&host->agent, 0, &event, NULL, 0, NULL, 0), SERF_AGENT_OK);
    is("its time", (uint32_t)event.time, (uint32_t)time);
}

/* The event of this time comes: it is ignored for this reason, and nothing is appended. */
static void is_ignored(struct host *host, uint64_t time, uint32_t reason) {
    struct serf_agent_result result = {0};
    is("receive", serf_agent_receive(&host->agent, 1, packets[time].bytes, packets[time].len, false), SERF_AGENT_OK);
    settled("an event that is ignored", host, false, "");
    is("result", serf_agent_result(&host->agent, &result), SERF_AGENT_OK);
    is("an event that is ignored", result.kind, SERF_AGENT_RESULT_IGNORED);
    is("the reason", result.reason, reason);
}

static void clocks(struct host *host, uint64_t event, uint64_t minimum) {
    struct serf_agent_clocks found = {0};
    is("clocks", serf_agent_clocks(&host->agent, &found), SERF_AGENT_OK);
    is("the event clock", (uint32_t)found.event, (uint32_t)event);
    is("the minimum time", (uint32_t)found.event_minimum, (uint32_t)minimum);
}

/* Another agent's events of the times 1 and on: e1 and so on. */
static void make_packets(void) {
    struct host other = {0};
    char name[24];
    start(&other, false, "", "");
    for (size_t time = 1; time <= EVENTS; time++) {
        snprintf(name, sizeof name, "e%zu", time);
        is("fire", serf_agent_fire(&other.agent, (const uint8_t *)name, strlen(name), NULL, 0, false), SERF_AGENT_OK);
        is("flushed", serf_agent_flushed(&other.agent), SERF_AGENT_OK);
        is("packet", serf_agent_packet(&other.agent, &packets[time].len, packets[time].bytes, sizeof packets[time].bytes), SERF_AGENT_OK);
        if (time == JOINED) {
            is("state", serf_agent_local_state(&other.agent), SERF_AGENT_OK);
            is("packet", serf_agent_packet(&other.agent, &state.len, state.bytes, sizeof state.bytes), SERF_AGENT_OK);
        }
    }
    serf_agent_close(&other.agent);
}

static void query(struct host *host, const char *wanted) {
    const struct serf_agent_params params = {.timeout = 1000};
    is("query", serf_agent_query(&host->agent, 1, 7, (const uint8_t *)"q", 1, NULL, 0, NULL, 0, &params), SERF_AGENT_OK);
    settled("a query", host, false, wanted);
}

/* Each event and each query has its own line, after its clock line if the clock rises, in one append. */
static void lines_of_calls(struct host *host) {
    start(host, true, "", "");
    is_new(host, 3, "event-clock: 03\n#event 3 6533 \n");
    is_new(host, 1, "#event 1 6531 \n");
    is("fire", serf_agent_fire(&host->agent, (const uint8_t *)"x", 1, (const uint8_t *)"yz", 2, true), SERF_AGENT_OK);
    settled("a fired event", host, false, "event-clock: 04\n#event 4 78 797a\n");
    query(host, "query-clock: 01\n#query 1 7\n");
    is("save", serf_agent_save_member_clock(&host->agent), SERF_AGENT_OK);
    settled("the member clock", host, false, "");
    is_ignored(host, 3, SERF_AGENT_SEEN);
}

/* After a kill, the agent knows what was handed out, and hands out what wasn't, even below the last clock line. */
static void goes_on(void) {
    struct host host = {0};
    struct packet asked;
    struct serf_agent_result result = {0};
    lines_of_calls(&host);
    restart(&host, true, "");
    clocks(&host, 5, 1);
    is_ignored(&host, 3, SERF_AGENT_SEEN);
    is_ignored(&host, 1, SERF_AGENT_SEEN);
    is_new(&host, 2, "#event 2 6532 \n");
    is_new(&host, 4, "#event 4 6534 \n");
    is_ignored(&host, 2, SERF_AGENT_SEEN);
    query(&host, "query-clock: 02\n#query 2 7\n");
    is("packet", serf_agent_packet(&host.agent, &asked.len, asked.bytes, sizeof asked.bytes), SERF_AGENT_OK);
    restart(&host, true, "");
    is("receive", serf_agent_receive(&host.agent, 1, asked.bytes, asked.len, false), SERF_AGENT_OK);
    is("result", serf_agent_result(&host.agent, &result), SERF_AGENT_OK);
    is("a query that was taken", result.reason, SERF_AGENT_SEEN);
    is_ignored(&host, 2, SERF_AGENT_SEEN);
    serf_agent_close(&host.agent);
}

/* A host that leaves the setting out has the lines and the answers that it always had. */
static void without(void) {
    struct host host = {0};
    start(&host, false, "", "");
    is_new(&host, 3, "event-clock: 3\n");
    is_new(&host, 1, "");
    query(&host, "query-clock: 1\n");
    restart(&host, false, "");
    clocks(&host, 4, 4);
    is_ignored(&host, 3, SERF_AGENT_BELOW_MINIMUM);
    is_ignored(&host, 2, SERF_AGENT_BELOW_MINIMUM);
    is("compact", serf_agent_compact(&host.agent), SERF_AGENT_OK);
    settled("compact", &host, true, "event-clock: 3\nquery-clock: 1\n");
    serf_agent_close(&host.agent);
}

/* What left the window can't come, however new it is. */
static void out_of_the_window(void) {
    struct host host = {0};
    start(&host, true, "event-clock: 09\n#event 9 6539 \n", "");
    clocks(&host, 10, 2);
    is_ignored(&host, 1, SERF_AGENT_BELOW_MINIMUM);
    is_new(&host, 2, "#event 2 6532 \n");
    serf_agent_close(&host.agent);
}

/* A kill in the middle of an append: the line that isn't whole says nothing, so its event is handed out. */
static void torn(void) {
    struct host host = {0};
    start(&host, true, "event-clock: 03\n#event 3 6533 \nevent-clock: 05\n#event 5 65", "#\n");
    clocks(&host, 6, 1);
    is_ignored(&host, 3, SERF_AGENT_SEEN);
    is_new(&host, 5, "#event 5 6535 \n");
    start(&host, true, "event-clock: 03\n#event 3 6533 \nevent-clock: 0", "#\n");
    clocks(&host, 4, 1);
    is_new(&host, 5, "event-clock: 05\n#event 5 6535 \n");
    restart(&host, true, "");
    is_ignored(&host, 5, SERF_AGENT_SEEN);
    is_ignored(&host, 3, SERF_AGENT_SEEN);
    serf_agent_close(&host.agent);
}

/* Of a life without the setting all up to its clock line counts as handed out. */
static void on_and_off(void) {
    struct host host = {0};
    start(&host, true, "event-clock: 3\n", "");
    clocks(&host, 4, 4);
    is_ignored(&host, 2, SERF_AGENT_BELOW_MINIMUM);
    is_new(&host, 5, "event-clock: 05\n#event 5 6535 \n");
    restart(&host, false, "");
    clocks(&host, 6, 6);
    is_ignored(&host, 4, SERF_AGENT_BELOW_MINIMUM);
    is_new(&host, 7, "event-clock: 7\n");
    restart(&host, true, "");
    clocks(&host, 8, 8);
    is_ignored(&host, 5, SERF_AGENT_BELOW_MINIMUM);
    is_ignored(&host, 6, SERF_AGENT_BELOW_MINIMUM);
    is_new(&host, 8, "event-clock: 08\n#event 8 6538 \n");
    serf_agent_close(&host.agent);
}

/* A compaction keeps what the buffers hold. */
static void compactions(void) {
    struct host host = {0};
    start(&host, true, "", "");
    is_new(&host, 3, "event-clock: 03\n#event 3 6533 \n");
    is_new(&host, 1, "#event 1 6531 \n");
    query(&host, "query-clock: 01\n#query 1 7\n");
    is("compact", serf_agent_compact(&host.agent), SERF_AGENT_OK);
    settled("compact", &host, true,
            "#least event-clock: 1\n#event 1 6531 \n#event 3 6533 \n#least query-clock: 1\n#query 1 7\nevent-clock: 03\nquery-clock: 01\n");
    restart(&host, true, "");
    is_ignored(&host, 1, SERF_AGENT_SEEN);
    is_ignored(&host, 3, SERF_AGENT_SEEN);
    is_new(&host, 2, "#event 2 6532 \n");
    is_new(&host, 12, "event-clock: 012\n#event 12 653132 \n");
    is("compact", serf_agent_compact(&host.agent), SERF_AGENT_OK);
    settled("compact", &host, true,
            "#least event-clock: 5\n#event 12 653132 \n#least query-clock: 1\n#query 1 7\nevent-clock: 012\nquery-clock: 01\n");
    restart(&host, true, "");
    clocks(&host, 13, 5);
    is_ignored(&host, 3, SERF_AGENT_BELOW_MINIMUM);
    is_new(&host, 5, "#event 5 6535 \n");
    serf_agent_close(&host.agent);
}

/* A burst's lines are one append; a kill before anybody reads its outcomes costs their handlers alone. */
static void bursts(void) {
    struct host host = {0};
    uint64_t times[] = {3, 2, 3};
    start(&host, true, "", "");
    for (size_t i = 0; i < 3; i++) {
        is("burst_receive", serf_agent_burst_receive(&host.agent, 1, packets[times[i]].bytes, packets[times[i]].len, false), SERF_AGENT_OK);
    }
    settled("a burst", &host, false, "event-clock: 03\n#event 3 6533 \n#event 2 6532 \n");
    restart(&host, true, "");
    is_ignored(&host, 3, SERF_AGENT_SEEN);
    is_ignored(&host, 2, SERF_AGENT_SEEN);
    is_new(&host, 1, "#event 1 6531 \n");
    serf_agent_close(&host.agent);
}

/* A join that ignores old events appends a line of its minimum time, so that later lives ignore them too. Other merges don't. */
static void joins(void) {
    struct host host = {0};
    struct serf_agent_settings ignores = settings(true);
    struct serf_agent_result result = {0};
    ignores.ignore_old = true;
    is("open", serf_agent_open(&host.agent, (const uint8_t *)"a", 1, &ignores, NULL, 0), SERF_AGENT_OK);
    is("join", serf_agent_merge(&host.agent, state.bytes, state.len, true), SERF_AGENT_OK);
    settled("a join", &host, false, "#least event-clock: 4\n");
    is("result", serf_agent_result(&host.agent, &result), SERF_AGENT_OK);
    is("nothing is new", (uint32_t)result.events, 0);
    restart(&host, true, "");
    clocks(&host, 4, 4);
    is_ignored(&host, 3, SERF_AGENT_BELOW_MINIMUM);
    is_new(&host, 4, "event-clock: 04\n#event 4 6534 \n");
    start(&host, true, "", "");
    is("merge", serf_agent_merge(&host.agent, state.bytes, state.len, true), SERF_AGENT_OK);
    settled("a merge", &host, false, "event-clock: 01\n#event 1 6531 \nevent-clock: 02\n#event 2 6532 \nevent-clock: 03\n#event 3 6533 \n");
    is("result", serf_agent_result(&host.agent, &result), SERF_AGENT_OK);
    is("all are new", (uint32_t)result.events, JOINED);
    serf_agent_close(&host.agent);
}

static bool is_worth(struct host *host, uint64_t limit) {
    bool should = false;
    is("should_compact", serf_agent_should_compact(&host->agent, limit, &should), SERF_AGENT_OK);
    return should;
}

/* A compaction is worth it if what it leaves, with the lines of what the buffers hold, is at most half of the text. */
static void worth(void) {
    struct host host = {0};
    char text[ROOM] = "event-clock: 01\n";
    for (size_t lines = 1; lines <= 10; lines++) {
        strcat(text, "#event 1 6531 \n");
        start(&host, true, text, "");
        /* (it leaves 75 bytes: two lines of least times, that of the event and that of its clock) */
        is("with events kept", is_worth(&host, host.len - 1), strlen(text) >= 2 * 75);
        is("up to the limit", is_worth(&host, host.len), false);
        start(&host, false, text, "");
        is("without", is_worth(&host, host.len - 1), strlen(text) >= 2 * 15);
        serf_agent_close(&host.agent);
    }
    start(&host, true, text, "");
    is("compact", serf_agent_compact(&host.agent), SERF_AGENT_OK);
    settled("compact", &host, true, "#least event-clock: 1\n#event 1 6531 \n#least query-clock: 1\nevent-clock: 01\n");
    is("what it leaves", (uint32_t)host.len, 75);
    is("no more to do", is_worth(&host, 0), false);
    serf_agent_close(&host.agent);
}

int main(void) {
    make_packets();
    goes_on();
    without();
    out_of_the_window();
    torn();
    on_and_off();
    compactions();
    bursts();
    joins();
    worth();
    printf("%d passed, %d failed\n", passed, failed);
    return failed != 0;
}
