/* What a host of members asks: intents read and written, the members that a state names, the filters of a query whether
 * the host's tags pass, and the time of a query; with little room, malformed packets and no memory.
 *
 * Linked with malloc and realloc wrapped. Prints `FAILED ..` for each that doesn't hold, and `N passed, M failed`. */
#include "serf_agent.h"

#include <stdio.h>
#include <stdlib.h>
#include <string.h>

void *__real_malloc(size_t size);
void *__real_realloc(void *old, size_t size);
void *__wrap_malloc(size_t size);
void *__wrap_realloc(void *old, size_t size);

/* How many requests are granted from now on (below 0: all). */
static long granted = -1;

static bool is_refused(void) {
    if (granted == 0) {
        return true;
    }
    granted -= granted > 0;
    return false;
}

void *__wrap_malloc(size_t size) {
    return is_refused() ? NULL : __real_malloc(size);
}

void *__wrap_realloc(void *old, size_t size) {
    return is_refused() ? NULL : __real_realloc(old, size);
}

static int passed, failed;

static void holds(const char *what, bool is) {
    passed += is;
    failed += !is;
    if (!is) {
        printf("FAILED %s\n", what);
    }
}

static void is(const char *what, uint32_t code, uint32_t wanted) {
    holds(what, code == wanted);
}

#define BYTES(literal) (const uint8_t *)literal, sizeof(literal) - 1

/* Intents off the wire between agents of Serf. */
#define BETA_JOINS "\x01\x82\xa5LTime\x01\xa4Node\xa4" "beta"
#define GAMMA_LEAVES "\x00\x83\xa5LTime\x03\xa4Node\xa5gamma\xa5Prune\xc2"
#define DELTA_IS_FORGOTTEN "\x00\x83\xa5LTime\x06\xa4Node\xa5" "delta\xa5Prune\xc3"

static uint8_t room[4096];

static void reads(const char *what, const uint8_t *packet, size_t len, uint64_t time, const char *node, bool leave, bool prune) {
    struct serf_agent_intent intent;
    memset(room, 'x', 8);
    is(what, serf_agent_intent(packet, len, &intent, room, 2), SERF_AGENT_OK);
    holds("two bytes of the name, and no more", memcmp(room, node, 2) == 0 && room[2] == 'x');
    is("with room", serf_agent_intent(packet, len, &intent, room, sizeof room), SERF_AGENT_OK);
    holds("what it says", intent.time == time && intent.leave == leave && intent.prune == prune);
    holds("whose word", intent.node_len == strlen(node) && memcmp(room, node, intent.node_len) == 0);
}

static void says_nothing(const char *what, const uint8_t *packet, size_t len, uint32_t wanted) {
    struct serf_agent_intent intent = {77, 78, true, true};
    room[0] = 'x';
    is(what, serf_agent_intent(packet, len, &intent, room, sizeof room), wanted);
    holds("the old value is unchanged", intent.time == 77 && intent.node_len == 78 && intent.leave && intent.prune && room[0] == 'x');
}

static void has_fault(const char *what, const uint8_t *packet, size_t len, uint32_t kind, size_t offset, uint8_t byte) {
    struct serf_agent_packet_error fault = {77, 78, 79};
    says_nothing(what, packet, len, SERF_AGENT_NO_MESSAGE);
    is(what, serf_agent_intent_error(packet, len, &fault), SERF_AGENT_OK);
    holds("its fault", fault.kind == kind && fault.offset == offset && fault.byte == byte);
}

static void has_none(const char *what, const uint8_t *packet, size_t len) {
    struct serf_agent_packet_error fault = {77, 78, 79};
    is(what, serf_agent_intent_error(packet, len, &fault), SERF_AGENT_NOTHING);
    holds("the old value is unchanged", fault.offset == 77 && fault.kind == 78 && fault.byte == 79);
}

static void intents(void) {
    reads("a join", BYTES(BETA_JOINS), 1, "beta", false, false);
    reads("a leave", BYTES(GAMMA_LEAVES), 3, "gamma", true, false);
    reads("a leave that prunes", BYTES(DELTA_IS_FORGOTTEN), 6, "delta", true, true);
    reads("one of an older agent", BYTES("\x00\x82\xa4Node\xa5gamma\xa5LTime\xd3\0\0\0\0\0\0\0\x03"), 3, "gamma", true, false);
    has_none("a join", BYTES(BETA_JOINS));
    says_nothing("an event", BYTES("\x03\x80"), SERF_AGENT_NOTHING);
    says_nothing("a relay of any bytes", BYTES("\x09\xc1"), SERF_AGENT_NOTHING);
    has_none("a relay of any bytes", BYTES("\x09\xc1"));
    has_fault("nothing", NULL, 0, SERF_AGENT_ERROR_EMPTY, 0, 0);
    has_fault("a type that no message has", BYTES("\x63\x80"), SERF_AGENT_ERROR_UNKNOWN_TYPE, 0, 99);
    has_fault("a length that nobody believes", BYTES("\x01\x81\xa4Node\xdb\xff\xff\xff\xff" "a"), SERF_AGENT_ERROR_TRUNCATED, 7, 0);
    has_fault("a float", BYTES("\x01\x81\xa5LTime\xca\0\0\0\0"), SERF_AGENT_ERROR_UNSUPPORTED, 8, 0xca);
    has_fault("a byte behind", BYTES("\x00\x80\x00"), SERF_AGENT_ERROR_TRAILING, 2, 0);
    has_fault("nil", BYTES("\x00\xc0"), SERF_AGENT_ERROR_NOT_A_MAP, 0, 0);
    has_fault("a name twice", BYTES("\x01\x82\xa4Node\xa0\xa4Node\xa0"), SERF_AGENT_ERROR_TWICE, 8, 0);
    has_fault("a number as a prune", BYTES("\x00\x81\xa5Prune\x01"), SERF_AGENT_ERROR_WRONG_KIND, 8, 0);
    has_fault("2^64 - 1 as a time", BYTES("\x01\x81\xa5LTime\xcf\xff\xff\xff\xff\xff\xff\xff\xff"), SERF_AGENT_ERROR_MAX_TIME, 8, 0);
}

static uint32_t join(uint64_t time, size_t *len, size_t size) {
    return serf_agent_join_packet(time, BYTES("beta"), len, room, size);
}

static void written_intents(void) {
    size_t len = 0;
    is("a join", join(1, &len, sizeof room), SERF_AGENT_OK);
    holds("its bytes", len == sizeof BETA_JOINS - 1 && memcmp(room, BETA_JOINS, len) == 0);
    is("a leave", serf_agent_leave_packet(3, BYTES("gamma"), false, &len, room, sizeof room), SERF_AGENT_OK);
    holds("its bytes", len == sizeof GAMMA_LEAVES - 1 && memcmp(room, GAMMA_LEAVES, len) == 0);
    is("a prune", serf_agent_leave_packet(6, BYTES("delta"), true, &len, room, sizeof room), SERF_AGENT_OK);
    holds("its bytes", len == sizeof DELTA_IS_FORGOTTEN - 1 && memcmp(room, DELTA_IS_FORGOTTEN, len) == 0);
    memset(room, 'x', 8);
    is("a join, with little room", join(1, &len, 3), SERF_AGENT_OK);
    holds("a front of it, and no more", len == sizeof BETA_JOINS - 1 && memcmp(room, BETA_JOINS, 3) == 0 && room[3] == 'x');
    uint8_t nobody[64];
    struct serf_agent_intent intent = {77, 78, true, true};
    is("a name of no bytes", serf_agent_join_packet(0, NULL, 0, &len, nobody, sizeof nobody), SERF_AGENT_OK);
    room[0] = 'x';
    is("a join of nobody", serf_agent_intent(nobody, len, &intent, room, sizeof room), SERF_AGENT_OK);
    holds("says so", intent.time == 0 && intent.node_len == 0 && !intent.leave && !intent.prune && room[0] == 'x');
    len = 77;
    room[0] = 'x';
    is("2^64 - 1", join(UINT64_MAX, &len, sizeof room), SERF_AGENT_EXHAUSTED);
    granted = 0;
    is("no memory", join(1, &len, sizeof room), SERF_AGENT_OUT_OF_MEMORY);
    is("no memory", serf_agent_leave_packet(1, BYTES("a"), true, &len, room, sizeof room), SERF_AGENT_OUT_OF_MEMORY);
    granted = -1;
    holds("the old value is unchanged", len == 77 && room[0] == 'x');
}

static const struct serf_agent_settings settings = {8, 8, 512, 1024, 1024, 8, 8, false, false};

/* The state of an agent that names three members with status times and two that left. */
static size_t state_of_five(uint8_t *to, size_t size) {
    struct serf_agent agent = {0};
    size_t len = 0;
    is("open", serf_agent_open(&agent, BYTES("a"), &settings, BYTES("clock: 3\n")), SERF_AGENT_OK);
    is("b", serf_agent_add_status(&agent, BYTES("b"), 7), SERF_AGENT_OK);
    is("no name", serf_agent_add_status(&agent, NULL, 0, 0), SERF_AGENT_OK);
    is("b again", serf_agent_add_status(&agent, BYTES("b"), 9), SERF_AGENT_OK);
    is("gone", serf_agent_add_left(&agent, BYTES("gone")), SERF_AGENT_OK);
    is("nobody", serf_agent_add_left(&agent, NULL, 0), SERF_AGENT_OK);
    is("a state", serf_agent_local_state(&agent), SERF_AGENT_OK);
    is("its packet", serf_agent_packet(&agent, &len, to, size), SERF_AGENT_OK);
    is("close", serf_agent_close(&agent), SERF_AGENT_OK);
    return len;
}

static void members(void) {
    static uint8_t state[1024];
    struct serf_agent_members all = {77, 78, 79};
    struct serf_agent_member named[6];
    size_t len = state_of_five(state, sizeof state);
    memset(named, 0x55, sizeof named);
    is("the sizes", serf_agent_state_members(state, len, &all, named, 0, room, 0), SERF_AGENT_OK);
    holds("of five", all.member_clock == 4 && all.members == 5 && all.names_len == 6 && named[0].name_len > 5);
    memset(room, 'x', 8);
    is("two of them", serf_agent_state_members(state, len, &all, named, 2, room, 3), SERF_AGENT_OK);
    holds("two, and no more", all.members == 5 && named[1].name_len == 0 && named[2].name_len > 5);
    holds("three bytes, and no more", memcmp(room, "bbgx", 4) == 0);
    is("all", serf_agent_state_members(state, len, &all, named, 6, room, sizeof room), SERF_AGENT_OK);
    const struct serf_agent_member wanted[5] = {{7, 1, false}, {0, 0, false}, {9, 1, false}, {0, 4, true}, {0, 0, true}};
    for (int i = 0; i < 5; i++) {
        holds("a member", named[i].status_time == wanted[i].status_time && named[i].name_len == wanted[i].name_len &&
                              named[i].left == wanted[i].left);
    }
    holds("their names", memcmp(room, "bbgone", 6) == 0 && named[5].name_len > 5);
    is("a state of none", serf_agent_state_members(BYTES("\x02\x80"), &all, named, 6, room, sizeof room), SERF_AGENT_OK);
    holds("of none", all.member_clock == 0 && all.members == 0 && all.names_len == 0);
    all.members = 78;
    is("an event", serf_agent_state_members(BYTES("\x03\x80"), &all, named, 6, room, sizeof room), SERF_AGENT_NOTHING);
    is("a cut state", serf_agent_state_members(state, len - 1, &all, named, 6, room, sizeof room), SERF_AGENT_NOTHING);
    is("nothing", serf_agent_state_members(NULL, 0, &all, named, 6, room, sizeof room), SERF_AGENT_NOTHING);
    uint32_t code = SERF_AGENT_OUT_OF_MEMORY;
    long requests = 0;
    for (; code == SERF_AGENT_OUT_OF_MEMORY && requests < 99; requests++) {
        holds("the old value is unchanged", all.members == 78);
        granted = requests;
        code = serf_agent_state_members(state, len, &all, named, 6, room, sizeof room);
    }
    granted = -1;
    is("memory ran out, and then there was enough", code, SERF_AGENT_OK);
    holds("two requests at least", requests > 2 && all.members == 5);
}

static void times_of_queries(void) {
    struct serf_agent agent = {0};
    struct serf_agent_params params = {.timeout = 1000};
    struct serf_agent_bytes about;
    uint64_t time = 77;
    is("an empty handle", serf_agent_query_time(&agent, &time), SERF_AGENT_EMPTY);
    is("open", serf_agent_open(&agent, BYTES("a"), &settings, BYTES("query-clock: 8\n")), SERF_AGENT_OK);
    is("no query", serf_agent_query_time(&agent, &time), SERF_AGENT_NOTHING);
    is("query", serf_agent_query(&agent, 5, 7, BYTES("q"), NULL, 0, NULL, 0, &params), SERF_AGENT_OK);
    is("its line isn't written", serf_agent_query_time(&agent, &time), SERF_AGENT_PENDING);
    holds("the old value is unchanged", time == 77);
    is("its line", serf_agent_pending(&agent, &about, room, sizeof room), SERF_AGENT_OK);
    is("flushed", serf_agent_flushed(&agent), SERF_AGENT_OK);
    is("its time", serf_agent_query_time(&agent, &time), SERF_AGENT_OK);
    holds("the time", time == 9);
    is("fire", serf_agent_fire(&agent, BYTES("x"), NULL, 0, false), SERF_AGENT_OK);
    is("flushed", serf_agent_flushed(&agent), SERF_AGENT_OK);
    is("no query any more", serf_agent_query_time(&agent, &time), SERF_AGENT_NOTHING);
    is("close", serf_agent_close(&agent), SERF_AGENT_OK);
}

/* What the library has for the file is written: here to nowhere. */
static void is_written(struct serf_agent *agent) {
    is("flushed", serf_agent_flushed(agent), SERF_AGENT_OK);
}

static void times_of_members(void) {
    struct serf_agent agent = {0};
    struct serf_agent_clocks clocks;
    struct serf_agent_result result;
    struct serf_agent_bytes lacks;
    is("an empty handle", serf_agent_observe_member(&agent, 1), SERF_AGENT_EMPTY);
    is("open", serf_agent_open(&agent, BYTES("a"), &settings, BYTES("clock: 3\n")), SERF_AGENT_OK);
    is("an old time", serf_agent_observe_member(&agent, 2), SERF_AGENT_OK);
    is("its clocks", serf_agent_clocks(&agent, &clocks), SERF_AGENT_OK);
    holds("are as before", clocks.member == 4 && clocks.event == 1 && clocks.query == 1);
    is("a new time", serf_agent_observe_member(&agent, 9), SERF_AGENT_OK);
    is("its clocks", serf_agent_clocks(&agent, &clocks), SERF_AGENT_OK);
    holds("the member clock is above it", clocks.member == 10 && clocks.event == 1 && clocks.event_minimum == 1);
    is("2^64 - 1", serf_agent_observe_member(&agent, UINT64_MAX), SERF_AGENT_EXHAUSTED);
    granted = 0;
    is("its own time, with no memory", serf_agent_observe_member(&agent, clocks.member), SERF_AGENT_OK);
    granted = -1;
    is("save", serf_agent_save_member_clock(&agent), SERF_AGENT_OK);
    is("not yet written", serf_agent_observe_member(&agent, 99), SERF_AGENT_PENDING);
    is("its line", serf_agent_pending(&agent, &lacks, room, sizeof room), SERF_AGENT_OK);
    holds("says the time that was taken", lacks.len == 10 && memcmp(room, "clock: 10\n", 10) == 0);
    is_written(&agent);
    is("fire", serf_agent_fire(&agent, BYTES("x"), NULL, 0, false), SERF_AGENT_OK);
    is_written(&agent);
    is("the last time", serf_agent_observe_member(&agent, UINT64_MAX - 1), SERF_AGENT_OK);
    is("what was given", serf_agent_result(&agent, &result), SERF_AGENT_OK);
    holds("stays", result.kind == SERF_AGENT_RESULT_EVENT_FIRED && result.events == 1);
    is("its clocks", serf_agent_clocks(&agent, &clocks), SERF_AGENT_OK);
    holds("the member clock is exhausted", clocks.member == UINT64_MAX && clocks.event == 2);
    is("close", serf_agent_close(&agent), SERF_AGENT_OK);
}

/* A query of agent q with these filters, each preceded by its length, and then a 0. */
static size_t query_of(const char *filters, uint8_t *to, size_t size) {
    struct serf_agent agent = {0};
    struct serf_agent_params params = {.timeout = 1000, .want_ack = true};
    size_t len = 0;
    is("open", serf_agent_open(&agent, BYTES("q"), &settings, NULL, 0), SERF_AGENT_OK);
    for (; *filters; filters += 1 + *filters) {
        is("a filter", serf_agent_add_filter(&agent, (const uint8_t *)filters + 1, (size_t)*filters), SERF_AGENT_OK);
    }
    is("query", serf_agent_query(&agent, 5, 7, BYTES("who"), NULL, 0, NULL, 0, &params), SERF_AGENT_OK);
    is_written(&agent);
    is("its packet", serf_agent_packet(&agent, &len, to, size), SERF_AGENT_OK);
    is("close", serf_agent_close(&agent), SERF_AGENT_OK);
    return len;
}

/* Filters as Serf writes them: of the node b, of another, of a tag, and of a type that nobody knows. */
#define NODE "\x04\x00\x91\xa1" "b"
#define OTHER "\x04\x00\x91\xa1" "c"
#define TAG "\x0e\x01\x82\xa4" "Expr\xa0\xa3" "Tag\xa1" "a"
#define UNKNOWN "\x01\x02"

static void filters(void) {
    static uint8_t packet[1024];
    struct serf_agent_filters all = {77, 78};
    size_t lens[4] = {55, 55, 55, 55}, len = query_of(NODE TAG UNKNOWN, packet, sizeof packet);
    is("the sizes", serf_agent_query_filters(packet, len, &all, NULL, 0, NULL, 0), SERF_AGENT_OK);
    holds("of three", all.filters == 3 && all.filters_len == 19);
    memset(room, 'x', 32);
    is("two of them", serf_agent_query_filters(packet, len, &all, lens, 2, room, 6), SERF_AGENT_OK);
    holds("two, and no more", all.filters == 3 && lens[0] == 4 && lens[1] == 14 && lens[2] == 55);
    holds("six bytes, and no more", memcmp(room, "\x00\x91\xa1" "b\x01\x82x", 7) == 0);
    is("all", serf_agent_query_filters(packet, len, &all, lens, 4, room, sizeof room), SERF_AGENT_OK);
    holds("all of them", lens[2] == 1 && lens[3] == 55 && memcmp(room + 4, &TAG[1], 14) == 0 && room[18] == 2 && room[19] == 'x');
    all.filters = 78;
    is("an event", serf_agent_query_filters(BYTES("\x03\x80"), &all, lens, 4, room, sizeof room), SERF_AGENT_NOTHING);
    is("a cut query", serf_agent_query_filters(packet, len - 1, &all, lens, 4, room, sizeof room), SERF_AGENT_NOTHING);
    is("nothing", serf_agent_query_filters(NULL, 0, &all, lens, 4, room, sizeof room), SERF_AGENT_NOTHING);
    uint32_t code = SERF_AGENT_OUT_OF_MEMORY;
    long requests = 0;
    for (; code == SERF_AGENT_OUT_OF_MEMORY && requests < 99; requests++) {
        holds("the old value is unchanged", all.filters == 78);
        granted = requests;
        code = serf_agent_query_filters(packet, len, &all, lens, 4, room, sizeof room);
    }
    granted = -1;
    is("memory ran out, and then there was enough", code, SERF_AGENT_OK);
    holds("two requests at least", requests > 2 && all.filters == 3);
    is("a query of none", serf_agent_query_filters(packet, query_of("", packet, sizeof packet), &all, lens, 4, room, sizeof room),
       SERF_AGENT_OK);
    holds("of none", all.filters == 0 && all.filters_len == 0);
}

/* Whether agent b hands out a query with these filters if its host passes this verdict on its tags: alone and within a burst. */
static void hands_out(const char *what, const char *filters, bool tags_pass, bool wanted) {
    static uint8_t packet[1024];
    size_t len = query_of(filters, packet, sizeof packet), ack = 0;
    for (int is_burst = 0; is_burst < 2; is_burst++) {
        struct serf_agent agent = {0};
        struct serf_agent_result result = {0};
        uint32_t answered = 0;
        is("open", serf_agent_open(&agent, BYTES("b"), &settings, NULL, 0), SERF_AGENT_OK);
        if (is_burst) {
            is(what, serf_agent_burst_receive(&agent, 9, packet, len, tags_pass), SERF_AGENT_OK);
            is("and again", serf_agent_burst_receive(&agent, 9, packet, len, false), SERF_AGENT_OK);
            is_written(&agent);
            is("the first", serf_agent_next(&agent, &answered), SERF_AGENT_OK);
        } else {
            is(what, serf_agent_receive(&agent, 9, packet, len, tags_pass), SERF_AGENT_OK);
            is_written(&agent);
        }
        is("its result", serf_agent_result(&agent, &result), SERF_AGENT_OK);
        holds(what, result.kind == SERF_AGENT_RESULT_QUERY && result.rebroadcast && (result.handed != 0) == wanted);
        is("its ack", serf_agent_ack(&agent, &ack, room, 0), wanted ? SERF_AGENT_OK : SERF_AGENT_NOTHING);
        if (is_burst) {
            is("the second", serf_agent_next(&agent, &answered), SERF_AGENT_OK);
        } else {
            is("and again", serf_agent_receive(&agent, 9, packet, len, true), SERF_AGENT_OK);
        }
        is("the result of that", serf_agent_result(&agent, &result), SERF_AGENT_OK);
        holds("it was taken before", result.kind == SERF_AGENT_RESULT_IGNORED && result.reason == SERF_AGENT_SEEN);
        is("close", serf_agent_close(&agent), SERF_AGENT_OK);
    }
}

/* Whether agent b hands out its own query with these filters if its host passes this verdict on its tags: alone and within a
   burst. */
static void hands_out_its_own(const char *what, const char *filters, bool tags_pass, bool wanted) {
    struct serf_agent_params params = {.timeout = 1000, .want_ack = true, .tags_pass = tags_pass};
    for (int is_burst = 0; is_burst < 2; is_burst++) {
        struct serf_agent agent = {0};
        struct serf_agent_result result = {0};
        uint32_t answered = 0;
        size_t ack = 0;
        is("open", serf_agent_open(&agent, BYTES("b"), &settings, NULL, 0), SERF_AGENT_OK);
        for (const char *filter = filters; *filter; filter += 1 + *filter) {
            is("a filter", serf_agent_add_filter(&agent, (const uint8_t *)filter + 1, (size_t)*filter), SERF_AGENT_OK);
        }
        if (is_burst) {
            is(what, serf_agent_burst_query(&agent, 5, 7, BYTES("who"), NULL, 0, NULL, 0, &params), SERF_AGENT_OK);
            is_written(&agent);
            is("its outcome", serf_agent_next(&agent, &answered), SERF_AGENT_OK);
        } else {
            is(what, serf_agent_query(&agent, 5, 7, BYTES("who"), NULL, 0, NULL, 0, &params), SERF_AGENT_OK);
            is_written(&agent);
        }
        is("its result", serf_agent_result(&agent, &result), SERF_AGENT_OK);
        holds(what, result.kind == SERF_AGENT_RESULT_QUERY_FIRED && (result.handed != 0) == wanted);
        is("its ack", serf_agent_ack(&agent, &ack, room, 0), wanted ? SERF_AGENT_OK : SERF_AGENT_NOTHING);
        is("close", serf_agent_close(&agent), SERF_AGENT_OK);
    }
}

static void verdicts_of_its_own(void) {
    hands_out_its_own("its own of no filter", "", false, true);
    hands_out_its_own("its own of a tag", TAG, false, false);
    hands_out_its_own("its own of a tag that passes", TAG, true, true);
    hands_out_its_own("its own of its name and tags that pass", NODE TAG TAG, true, true);
    hands_out_its_own("its own of another name and a tag that passes", TAG OTHER, true, false);
    hands_out_its_own("its own of an unknown filter and a tag that passes", TAG UNKNOWN, true, false);
}

static void verdicts(void) {
    hands_out("no filter", "", false, true);
    hands_out("no filter, and tags that pass", "", true, true);
    hands_out("a tag", TAG, false, false);
    hands_out("a tag that passes", TAG, true, true);
    hands_out("its name and tags that pass", NODE TAG TAG, true, true);
    hands_out("another name and a tag that passes", TAG OTHER, true, false);
    hands_out("an unknown filter and a tag that passes", TAG UNKNOWN, true, false);
    hands_out("its name and tags that don't pass", NODE TAG, false, false);
    struct serf_agent agent = {0};
    is("an empty handle", serf_agent_receive(&agent, 1, NULL, 0, true), SERF_AGENT_EMPTY);
    is("an empty handle", serf_agent_burst_receive(&agent, 1, NULL, 0, true), SERF_AGENT_EMPTY);
    is("open", serf_agent_open(&agent, BYTES("b"), &settings, NULL, 0), SERF_AGENT_OK);
    is("no message", serf_agent_receive(&agent, 1, NULL, 0, true), SERF_AGENT_NO_MESSAGE);
    is("close", serf_agent_close(&agent), SERF_AGENT_OK);
}

int main(void) {
    filters();
    verdicts();
    verdicts_of_its_own();
    times_of_members();
    intents();
    written_intents();
    members();
    times_of_queries();
    printf("%d passed, %d failed\n", passed, failed);
    return failed != 0;
}
