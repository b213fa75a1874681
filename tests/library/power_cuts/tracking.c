/* What a host in C notes of the handlers of its events. POWER_CUTS_FAULT names a bug of it, as handled.py lists them. */
#include "tracking.h"

#include <stdlib.h>
#include <string.h>

enum { MOST = 1024, NAME = 64, ROOM = 1 << 16 };

struct open_event {
    uint64_t time;
    uint8_t name[NAME];
    size_t len;
    bool has_begun;
};

static struct open_event open_list[MOST];
static size_t count;

/* Lines of events that are done, which wait for the next flush. */
static uint8_t done_lines[ROOM];
static size_t done_len;

/* No event that was handed out before the compaction under way has a larger time. */
static uint64_t latest;

static bool is(const char *fault) {
    const char *planted = getenv("POWER_CUTS_FAULT");
    return planted != NULL && strcmp(planted, fault) == 0;
}

typedef uint32_t (*line_of)(uint64_t, const uint8_t *, size_t, const uint8_t *, size_t, size_t *, uint8_t *, size_t);

/* Appends the line of an event to a text of ROOM bytes. */
static void put(line_of line, const struct open_event *event, uint8_t *to, size_t *len) {
    size_t line_len = 0;
    line(event->time, event->name, event->len, event->name, 0, &line_len, to + *len, ROOM - *len);
    *len += line_len;
}

static void put_up_to(uint64_t time, uint8_t *to, size_t *len) {
    size_t line_len = 0;
    serf_agent_done_up_to_line(time, &line_len, to + *len, ROOM - *len);
    *len += line_len;
}

static struct open_event *add(uint64_t time, const uint8_t *name, size_t len) {
    struct open_event *event = &open_list[count++];
    *event = (struct open_event){.time = time, .len = len};
    memcpy(event->name, name, len);
    return event;
}

static struct open_event *first(bool has_begun) {
    for (size_t i = 0; i < count; i++) {
        if (open_list[i].has_begun == has_begun) {
            return &open_list[i];
        }
    }
    return NULL;
}

bool tracking_open(const uint8_t *text, size_t len, print_event print) {
    static struct serf_agent_open_event events[MOST];
    static uint8_t names[ROOM];
    struct serf_agent_open_events all;
    const uint8_t *name = names;
    count = done_len = 0;
    if (serf_agent_open_events(text, len, &all, events, MOST, names, sizeof names) != SERF_AGENT_OK) {
        abort();
    }
    for (size_t i = 0; i < all.events; i++) {
        struct open_event *event = add(events[i].time, name, events[i].name_len);
        event->has_begun = events[i].begun;
        print(event->has_begun ? "u" : "w", event->time, event->name, event->len);
        name += events[i].name_len + events[i].payload_len;
    }
    return all.tracked;
}

enum serf_agent_store_error tracking_start(struct serf_agent_store *store, struct serf_agent *agent) {
    static uint8_t line[ROOM];
    struct serf_agent_clocks clocks = {0};
    size_t len = 0;
    serf_agent_clocks(agent, &clocks);
    put_up_to(clocks.event, line, &len);
    return serf_agent_store_append(store, line, len);
}

void tracking_hand_out(uint64_t time, const uint8_t *name, size_t len) {
    add(time, name, len);
}

enum serf_agent_store_error tracking_begin(struct serf_agent_store *store, print_event print) {
    struct open_event *event = first(false);
    if (event == NULL) {
        return SERF_AGENT_STORE_OK;
    }
    put(serf_agent_begun_line, event, done_lines, &done_len);
    if (is("done_first")) {
        put(serf_agent_done_line, event, done_lines, &done_len);
    }
    if (!is("begun_unflushed")) {
        enum serf_agent_store_error fault = serf_agent_store_append(store, done_lines, done_len);
        done_len = 0;
        if (fault != SERF_AGENT_STORE_OK && !is("begun_error")) {
            return fault;
        }
    }
    event->has_begun = true;
    print("b", event->time, event->name, event->len);
    return SERF_AGENT_STORE_OK;
}

void tracking_end(print_event print) {
    struct open_event *event = first(true);
    if (event == NULL) {
        return;
    }
    print("d", event->time, event->name, event->len);
    if (!is("done_first") && !is("done_missing")) {
        put(serf_agent_done_line, event, done_lines, &done_len);
    }
    count--;
    memmove(event, event + 1, (size_t)(open_list + count - event) * sizeof *event);
}

uint32_t tracking_compact(struct serf_agent *agent) {
    struct serf_agent_clocks clocks;
    uint32_t code = serf_agent_clocks(agent, &clocks);
    if (code != SERF_AGENT_OK) {
        return code;
    }
    latest = clocks.event - 1;
    return serf_agent_compact(agent);
}

/* The lines that follow the agent's in a text that replaces the file's. */
static void put_open(uint8_t *to, size_t *len) {
    put_up_to(latest, to, len);
    for (size_t i = 0; i < count && !is("compaction_drops"); i++) {
        const struct open_event *event = &open_list[is("compaction_reverses") ? count - 1 - i : i];
        put(serf_agent_open_line, event, to, len);
        if (event->has_begun && !is("compaction_forgets_begun")) {
            put(serf_agent_begun_line, event, to, len);
        }
    }
}

static enum serf_agent_store_error replace(struct serf_agent_store *store, uint8_t *text, size_t len) {
    enum serf_agent_store_error fault;
    size_t agent_len = len;
    done_len = 0;
    put_open(text, &len);
    if (!is("compaction_in_two_steps")) {
        return serf_agent_store_replace(store, text, len);
    }
    fault = serf_agent_store_replace(store, text, agent_len);
    return fault != SERF_AGENT_STORE_OK ? fault : serf_agent_store_append(store, text + agent_len, len - agent_len);
}

enum serf_agent_store_error tracking_settle(struct serf_agent_store *store, struct serf_agent *agent) {
    static uint8_t text[2 * ROOM];
    struct serf_agent_bytes about;
    enum serf_agent_store_error fault;
    if (serf_agent_pending(agent, &about, text, 0) != SERF_AGENT_OK || (about.len == 0 && !about.replaces)) {
        return SERF_AGENT_STORE_OK;
    }
    size_t before = about.replaces ? 0 : done_len;
    memcpy(text, done_lines, before);
    if (about.len > ROOM || serf_agent_pending(agent, &about, text + before, ROOM) != SERF_AGENT_OK) {
        abort();
    }
    if (about.replaces) {
        fault = replace(store, text, about.len);
    } else {
        fault = serf_agent_store_append(store, text, before + about.len);
        done_len = 0;
    }
    if (fault == SERF_AGENT_STORE_OK) {
        serf_agent_flushed(agent);
    } else {
        serf_agent_close(agent);
    }
    return fault;
}
