/* The agent of the C library behind the pipe of docs/SPEC.md. It reads calls on standard input and writes replies to standard output.
 *
 * Its snapshot is in memory. `break` is unsupported, because the library has no disk. */
#define _GNU_SOURCE
#include "pipe.h"

enum { WORDS = 4096, ROOM = 1 << 20 };

static struct serf_agent agent, other;
/* The agent from which getters read the result of the last call. */
static struct serf_agent *given = &agent;
static struct serf_agent_settings settings;
static struct bytes name, text;
/* Whether the next agent that is made keeps its events. */
static bool keeps;
static char *words[WORDS];
static size_t count;
/* The queries that were handed out in this life: the packet, the moment at which it arrived, and whether it can still be answered. */
static struct pending_query {
    struct bytes packet;
    uint64_t now;
    bool waits;
} *pending_queries;
static size_t pending_count;

static uint64_t number_of(size_t word) {
    return strtoull(words[word], NULL, 10);
}

/* Puts what the call left for the file into the snapshot's text. */
static void settle(void) {
    struct serf_agent_bytes about;
    if (serf_agent_pending(&agent, &about, NULL, 0) == SERF_AGENT_OK) {
        size_t old = about.replaces ? 0 : text.len;
        text.at = grown(text.at, old + about.len + 1);
        serf_agent_pending(&agent, &about, text.at + old, about.len);
        text.len = old + about.len;
        serf_agent_flushed(&agent);
    }
}

/* Prints the packets, the events and the query of the call's result. */
static void write_given(const struct serf_agent_result *result) {
    static uint8_t one[ROOM], two[ROOM];
    struct serf_agent_event event;
    struct serf_agent_pending_query query;
    size_t len;
    if (serf_agent_packet(given, &len, one, ROOM) == SERF_AGENT_OK) {
        write_line("sent", (struct bytes){one, len});
    }
    if (serf_agent_ack(given, &len, one, ROOM) == SERF_AGENT_OK) {
        write_line("sent", (struct bytes){one, len});
    }
    for (size_t i = 0; serf_agent_event(given, i, &event, one, ROOM, two, ROOM) == SERF_AGENT_OK; i++) {
        printf("event %llu", (number)event.time);
        put(one, event.name_len, "");
        put(two, event.payload_len, event.coalesce ? " 1\n" : " 0\n");
    }
    if (result->handed != 0 &&
        serf_agent_pending_query(&agent, result->handed, &query, one, ROOM, two, ROOM, NULL, 0, NULL, 0) == SERF_AGENT_OK) {
        printf("handed %llu %llu %u", (number)result->handed - 1, (number)query.time, query.id);
        put(one, query.name_len, "");
        put(two, query.payload_len, "\n");
    }
}

static void write_received(const struct serf_agent_result *result, struct bytes packet) {
    printf("%s%s", kinds[result->kind], result->kind == SERF_AGENT_RESULT_IGNORED ? reasons[result->reason] : "");
    printf(result->kind == SERF_AGENT_RESULT_FOREIGN ? "%u\n" : "\n", result->foreign);
    if (result->kind == SERF_AGENT_RESULT_ACK || result->kind == SERF_AGENT_RESULT_RESPONSE) {
        write_counted(packet);
    }
    if (result->rebroadcast) {
        write_line("sent", packet);
    }
}

static void write_clocks(const char *answer) {
    struct serf_agent_clocks clocks = {0};
    serf_agent_clocks(&agent, &clocks);
    printf("%s %llu %llu %llu", answer, (number)clocks.member, (number)clocks.event, (number)clocks.query);
    if (answer[0] == 'l') {
        printf(" %llu %llu\n", (number)clocks.event_minimum, (number)clocks.query_minimum);
        write_line("kept", text);
    } else {
        putchar('\n');
    }
}

/* Opens the agent, or opens it again, on its snapshot's text followed by more bytes. */
static void open_on(struct bytes more, const char *answer) {
    serf_agent_close(&agent);
    pending_count = 0;
    append(&text, more);
    serf_agent_open(&agent, name.at, name.len, &settings, text.at, text.len);
    settle();
    write_clocks(answer);
}

/* Makes an agent. A limit of 0 is unsupported, because the library uses Serf's own limit for it. */
static void make(void) {
    bool limits = count == 11, keep_events = keeps || strchr(words[6], '+') != NULL;
    keeps = false;
    if (limits && (number_of(8) == 0 || number_of(9) == 0)) {
        puts("unsupported");
        return;
    }
    name.len = text.len = 0;
    append(&name, bytes_of(words[1]));
    settings = (struct serf_agent_settings){
        .event_buffer = number_of(2),
        .query_buffer = number_of(3),
        .event_limit = number_of(4),
        .query_limit = limits ? number_of(8) : 0,
        .response_limit = limits ? number_of(9) : 0,
        .responders = number_of(5),
        .per_time = number_of(7),
        .ignore_old = words[6][0] == 'i',
        .keep_events = keep_events,
    };
    open_on(bytes_of(words[count - 1]), "opened");
}

/* Remembers the packet of a query that was handed out. */
static void remember(struct bytes packet, uint64_t now) {
    pending_queries = grown(pending_queries, (pending_count + 1) * sizeof *pending_queries);
    pending_queries[pending_count] = (struct pending_query){.now = now, .waits = true};
    append(&pending_queries[pending_count++].packet, packet);
}

/* Answers a query. Unlike a host's clock, the moments of a schedule may go back. So if the library has forgotten a query, because an
 * earlier call had a moment after its deadline, another agent receives the query again and answers it. */
static uint32_t respond(uint64_t now, uint64_t query, struct bytes payload) {
    struct pending_query *one = query < pending_count ? &pending_queries[query] : NULL;
    uint32_t code = serf_agent_respond(&agent, now, query + 1, payload.at, payload.len);
    if (code == SERF_AGENT_NOT_PENDING && one != NULL && one->waits) {
        given = &other;
        serf_agent_close(given);
        serf_agent_open(given, name.at, name.len, &settings, NULL, 0);
        serf_agent_receive(given, one->now, one->packet.at, one->packet.len, false);
        serf_agent_flushed(given);
        code = serf_agent_respond(given, now, 1, payload.at, payload.len);
    }
    if (code == SERF_AGENT_OK) {
        one->waits = false;
    }
    return code;
}

static uint32_t query(void) {
    struct bytes called = bytes_of(words[3]), payload = bytes_of(words[4]);
    uint64_t flags = number_of(6);
    struct serf_agent_params params = {.timeout = (int64_t)number_of(5), .want_ack = flags & 1, .no_broadcast = (flags & 2) != 0};
    for (size_t i = 7; i < count; i++) {
        struct bytes filter = bytes_of(words[i]);
        uint32_t code = serf_agent_add_filter(&agent, filter.at, filter.len);
        if (code != SERF_AGENT_OK) {
            return code;
        }
    }
    return serf_agent_query(&agent, number_of(1), (uint32_t)number_of(2), called.at, called.len, payload.at, payload.len, NULL, 0, &params);
}

/* Makes a call that can be refused. Returns its code, the beginning of its answer, and the packet or name in its arguments. */
static uint32_t called(const char *call, const char **answer, struct bytes *one) {
    struct bytes payload;
    *one = strchr("fdm", call[0]) != NULL ? bytes_of(words[1]) : (struct bytes){0};
    switch (call[0]) {
    case 'f':
        *answer = "fired";
        payload = bytes_of(words[2]);
        return serf_agent_fire(&agent, one->at, one->len, payload.at, payload.len, number_of(3) != 0);
    case 'd':
        return serf_agent_receive(&agent, number_of(2), one->at, one->len, false);
    case 'm':
        *answer = "merged";
        return serf_agent_merge(&agent, one->at, one->len, words[2][0] == 'j');
    case 'r':
        *answer = "replied";
        payload = bytes_of(words[3]);
        return respond(number_of(2), number_of(1), payload);
    case 'q':
        *answer = "queried";
        return query();
    case 'c':
        *answer = "compacted";
        return serf_agent_compact(&agent);
    default:
        *answer = call[1] == 't' ? "state" : "saved";
        return call[1] == 't' ? serf_agent_local_state(&agent) : serf_agent_save_member_clock(&agent);
    }
}

static void reply_to_call(const char *call) {
    const char *answer = NULL;
    struct bytes one;
    struct serf_agent_result result = {0};
    struct serf_agent_clocks before = {0};
    serf_agent_clocks(&agent, &before);
    given = &agent;
    uint32_t code = called(call, &answer, &one);
    settle();
    if (code == SERF_AGENT_NO_MESSAGE) {
        write_packet_error(one);
        return;
    }
    if (code != SERF_AGENT_OK) {
        const char *refusal = code <= SERF_AGENT_NOT_PENDING ? refusals[code] : NULL;
        printf("%s%s\n", refusal != NULL ? "refused " : "unsupported", refusal != NULL ? refusal : "");
        return;
    }
    serf_agent_result(given, &result);
    if (result.handed != 0) {
        static uint8_t fired[ROOM];
        size_t len = 0;
        serf_agent_packet(given, &len, fired, ROOM);
        remember(call[0] == 'q' ? (struct bytes){fired, len} : one, number_of(call[0] == 'q' ? 1 : 2));
    }
    if (answer == NULL) {
        write_received(&result, one);
    } else if (call[0] == 'f' || call[0] == 'q') {
        printf("%s %llu\n", answer, (number)(call[0] == 'f' ? before.event : before.query));
    } else {
        puts(answer);
    }
    write_given(&result);
}

static void reply(const char *call) {
    size_t closed = 0;
    if (strcmp(call, "open") == 0) {
        make();
    } else if (strcmp(call, "keeps") == 0) {
        keeps = true;
        puts("keeps");
    } else if (!agent.open || call[0] == 'b') {
        puts("unsupported");
    } else if (strcmp(call, "restart") == 0) {
        open_on(bytes_of(words[1]), "restarted");
    } else if (strcmp(call, "close") == 0) {
        serf_agent_close_due(&agent, number_of(1), &closed);
        printf("closed %zu\n", closed);
    } else if (strcmp(call, "look") == 0) {
        write_clocks("looked");
    } else {
        reply_to_call(call);
    }
}

int main(void) {
    char *line = NULL;
    size_t room = 0;
    while (getline(&line, &room, stdin) > 0) {
        count = 0;
        for (char *word = strtok(line, " \n"); word != NULL && count < WORDS; word = strtok(NULL, " \n")) {
            words[count++] = word;
        }
        if (count > 0) {
            reply(words[0]);
        }
        putchar('\n');
        fflush(stdout);
    }
    serf_agent_close(&agent);
    return 0;
}
