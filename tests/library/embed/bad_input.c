/* Calls on handles that are empty, in use or full of pending bytes, with wrong numbers, no bytes and any bytes.
 *
 * Prints a line `FAILED ..` for each answer that isn't as include/serf_agent.h says, and at the end `N passed, M failed`. */
#include "counts.h"
#include "serf_agent.h"

#include <stdlib.h>
#include <string.h>

static const struct serf_agent_settings settings = {8, 8, 512, 1024, 1024, 8, 8, false, false};
static uint8_t room[65536];

/* What the library has for the file is written: here to nowhere. */
static void written(struct serf_agent *agent) {
    struct serf_agent_bytes about;
    if (serf_agent_pending(agent, &about, room, sizeof room) == SERF_AGENT_OK) {
        serf_agent_flushed(agent);
    }
}

static uint32_t opened(struct serf_agent *agent, const char *name, const char *text) {
    return serf_agent_open(agent, (const uint8_t *)name, strlen(name), &settings, (const uint8_t *)text, strlen(text));
}

static uint32_t fired(struct serf_agent *agent, const char *name) {
    return serf_agent_fire(agent, (const uint8_t *)name, strlen(name), NULL, 0, false);
}

static uint32_t asked(struct serf_agent *agent, int64_t timeout) {
    struct serf_agent_params params = {.timeout = timeout, .want_ack = true};
    return serf_agent_query(agent, 5, 7, (const uint8_t *)"q", 1, NULL, 0, NULL, 0, &params);
}

/* The host's memory, for each thing that a getter reads. */
static struct {
    struct serf_agent_event event;
    struct serf_agent_pending_query handed;
    struct serf_agent_clocks clocks;
    struct serf_agent_closed closed;
    struct serf_agent_response response;
    struct serf_agent_answer answer;
    struct serf_agent_result result;
    struct serf_agent_bytes about;
    uint64_t number;
    size_t len;
    bool should;
    uint8_t text[4][64];
} host;

static bool has_only(uint8_t byte) {
    for (size_t at = 0; at < sizeof host; at++) {
        if (((const uint8_t *)&host)[at] != byte) {
            return false;
        }
    }
    return true;
}

/* Each getter answers this, and leaves the host's memory as it was. */
static void reads_nothing(struct serf_agent *agent, uint32_t wanted) {
    uint8_t(*text)[64] = host.text;
    for (uint8_t byte = 0; byte < 2; byte++) {
        memset(&host, byte, sizeof host);
        is("event", serf_agent_event(agent, 0, &host.event, text[0], 64, text[1], 64), wanted);
        is("packet", serf_agent_packet(agent, &host.len, text[0], 64), wanted);
        is("ack", serf_agent_ack(agent, &host.len, text[0], 64), wanted);
        is("handed", serf_agent_pending_query(agent, 1, &host.handed, text[0], 64, text[1], 64, text[2], 64, text[3], 64), wanted);
        is("clocks", serf_agent_clocks(agent, &host.clocks), wanted);
        is("next_deadline", serf_agent_next_deadline(agent, &host.number), wanted);
        is("open_queries", serf_agent_open_queries(agent, &host.len), wanted);
        is("closed", serf_agent_closed(agent, 0, &host.closed), wanted);
        is("closed_ack", serf_agent_closed_ack(agent, 0, 0, &host.len, text[0], 64), wanted);
        is("closed_response", serf_agent_closed_response(agent, 0, 0, &host.response, text[0], 64, text[1], 64), wanted);
        is("should_compact", serf_agent_should_compact(agent, 0, &host.should), wanted);
        is("query_time", serf_agent_query_time(agent, &host.number), wanted);
        is("the host's memory is unchanged", has_only(byte), true);
    }
}

/* So do the getters that work while bytes are pending, if there is no agent or no answer. */
static void nothing_to_read(void) {
    struct serf_agent agent = {0};
    for (uint8_t byte = 0; byte < 2; byte++) {
        memset(&host, byte, sizeof host);
        is("result", serf_agent_result(&agent, &host.result), SERF_AGENT_EMPTY);
        is("pending", serf_agent_pending(&agent, &host.about, host.text[0], 64), SERF_AGENT_EMPTY);
        is("outcomes", serf_agent_outcomes(&agent, &host.len), SERF_AGENT_EMPTY);
        is("answer", serf_agent_answer(NULL, 0, &host.answer, host.text[0], 64, host.text[1], 64), SERF_AGENT_NOTHING);
        is("the host's memory is unchanged", has_only(byte), true);
    }
}

/* Each call except open, pending, result and close returns this code. A filter can be added while bytes are pending. */
static void each(struct serf_agent *agent, const char *when, uint32_t wanted) {
    size_t len;
    uint8_t byte = 0;
    printf("each call, %s\n", when);
    is("fire", fired(agent, "x"), wanted);
    is("receive", serf_agent_receive(agent, 1, &byte, 1, false), wanted);
    is("merge", serf_agent_merge(agent, &byte, 1, true), wanted);
    is("local_state", serf_agent_local_state(agent), wanted);
    is("add_status", serf_agent_add_status(agent, &byte, 1, 1), wanted);
    is("add_left", serf_agent_add_left(agent, &byte, 1), wanted);
    is("add_filter", serf_agent_add_filter(agent, &byte, 1), wanted == SERF_AGENT_PENDING ? SERF_AGENT_OK : wanted);
    is("query", asked(agent, 1), wanted);
    is("respond", serf_agent_respond(agent, 1, 1, &byte, 1), wanted);
    is("close_due", serf_agent_close_due(agent, 1, &len), wanted);
    is("save_member_clock", serf_agent_save_member_clock(agent), wanted);
    is("compact", serf_agent_compact(agent), wanted);
    reads_nothing(agent, wanted);
}

static void empty_handles(void) {
    struct serf_agent agent = {0};
    each(&agent, "on a handle that was never opened", SERF_AGENT_EMPTY);
    nothing_to_read();
    is("flushed", serf_agent_flushed(&agent), SERF_AGENT_EMPTY);
    is("close", serf_agent_close(&agent), SERF_AGENT_EMPTY);
    is("open", opened(&agent, "a", ""), SERF_AGENT_OK);
    is("close", serf_agent_close(&agent), SERF_AGENT_OK);
    is("close again", serf_agent_close(&agent), SERF_AGENT_EMPTY);
    each(&agent, "on a handle that was closed", SERF_AGENT_EMPTY);
    is("open again", opened(&agent, "a", ""), SERF_AGENT_OK);
    is("close", serf_agent_close(&agent), SERF_AGENT_OK);
}

static void openings(void) {
    struct serf_agent agent = {0};
    struct serf_agent_settings bad = settings;
    struct serf_agent_clocks clocks;
    is("no name", opened(&agent, "", ""), SERF_AGENT_BAD_CONFIG);
    bad.event_buffer = 0;
    is("no slots", serf_agent_open(&agent, (const uint8_t *)"a", 1, &bad, NULL, 0), SERF_AGENT_BAD_CONFIG);
    bad.event_buffer = 65537;
    is("too many slots", serf_agent_open(&agent, (const uint8_t *)"a", 1, &bad, NULL, 0), SERF_AGENT_BAD_CONFIG);
    for (uint64_t limit = 9217; limit != 0; limit = limit == 9217 ? UINT64_MAX : 0) {
        bad = settings;
        bad.query_limit = limit;
        is("too long queries", serf_agent_open(&agent, (const uint8_t *)"a", 1, &bad, NULL, 0), SERF_AGENT_BAD_CONFIG);
        bad = settings;
        bad.response_limit = limit;
        is("too long responses", serf_agent_open(&agent, (const uint8_t *)"a", 1, &bad, NULL, 0), SERF_AGENT_BAD_CONFIG);
    }
    is("a handle that wasn't opened is empty", serf_agent_close(&agent), SERF_AGENT_EMPTY);
    is("open", opened(&agent, "a", "event-clock: 5\n"), SERF_AGENT_OK);
    is("open twice", opened(&agent, "b", "event-clock: 50\n"), SERF_AGENT_IN_USE);
    is("clocks", serf_agent_clocks(&agent, &clocks), SERF_AGENT_OK);
    is("the first agent is still there", (uint32_t)clocks.event, 6);
    is("close", serf_agent_close(&agent), SERF_AGENT_OK);
}

static void unwritten_bytes(void) {
    struct serf_agent agent = {0};
    struct serf_agent_bytes about;
    struct serf_agent_event event;
    is("open on a torn text", opened(&agent, "a", "event-clock: 5\nevent-cl"), SERF_AGENT_OK);
    each(&agent, "while a torn line isn't ended", SERF_AGENT_PENDING);
    is("the bytes", serf_agent_pending(&agent, &about, room, sizeof room), SERF_AGENT_OK);
    is("a torn line's end", (uint32_t)(about.len == 2 && memcmp(room, "#\n", 2) == 0 && !about.replaces), 1);
    is("open twice", opened(&agent, "b", ""), SERF_AGENT_IN_USE);
    is("flushed", serf_agent_flushed(&agent), SERF_AGENT_OK);
    is("unwritten again", serf_agent_pending(&agent, &about, room, sizeof room), SERF_AGENT_OK);
    is("nothing is pending", (uint32_t)(about.len == 0 && !about.replaces), 1);
    is("fire", fired(&agent, "x"), SERF_AGENT_OK);
    each(&agent, "while an event's line isn't written", SERF_AGENT_PENDING);
    is("no room", serf_agent_pending(&agent, &about, NULL, 0), SERF_AGENT_OK);
    is("the whole length all the same", (uint32_t)about.len, 15);
    is("flushed", serf_agent_flushed(&agent), SERF_AGENT_OK);
    is("the event", serf_agent_event(&agent, 0, &event, NULL, 0, NULL, 0), SERF_AGENT_OK);
    is("its time", (uint32_t)event.time, 6);
    is("no event after it", serf_agent_event(&agent, 1, &event, NULL, 0, NULL, 0), SERF_AGENT_NOTHING);
    is("none at the largest number", serf_agent_event(&agent, SIZE_MAX, &event, NULL, 0, NULL, 0), SERF_AGENT_NOTHING);
    is("compact", serf_agent_compact(&agent), SERF_AGENT_OK);
    is("the text", serf_agent_pending(&agent, &about, room, sizeof room), SERF_AGENT_OK);
    is("it replaces", (uint32_t)(about.replaces && about.len == 15 && memcmp(room, "event-clock: 6\n", 15) == 0), 1);
    is("close with pending bytes", serf_agent_close(&agent), SERF_AGENT_OK);
}

static void numbers_of_queries(void) {
    struct serf_agent agent = {0};
    struct serf_agent_result result = {0};
    struct serf_agent_pending_query handed;
    static const uint64_t wrong[] = {0, 2, 3, UINT32_MAX, UINT64_MAX};
    is("open", opened(&agent, "a", ""), SERF_AGENT_OK);
    is("no time", asked(&agent, 0), SERF_AGENT_NO_TIME);
    is("less than no time", asked(&agent, INT64_MIN), SERF_AGENT_NO_TIME);
    is("query", asked(&agent, 1000), SERF_AGENT_OK);
    written(&agent);
    is("result", serf_agent_result(&agent, &result), SERF_AGENT_OK);
    for (size_t i = 0; i < sizeof wrong / sizeof *wrong; i++) {
        if (wrong[i] != result.handed) {
            is("a wrong number", serf_agent_respond(&agent, 6, wrong[i], NULL, 0), SERF_AGENT_NOT_PENDING);
            is("a wrong number", serf_agent_pending_query(&agent, wrong[i], &handed, NULL, 0, NULL, 0, NULL, 0, NULL, 0),
           SERF_AGENT_NOT_PENDING);
        }
    }
    is("too late", serf_agent_respond(&agent, 1006, result.handed, NULL, 0), SERF_AGENT_PAST_DEADLINE);
    is("too large", serf_agent_respond(&agent, 6, result.handed, room, 2000), SERF_AGENT_TOO_LARGE);
    is("respond", serf_agent_respond(&agent, 6, result.handed, NULL, 0), SERF_AGENT_OK);
    is("respond twice", serf_agent_respond(&agent, 6, result.handed, NULL, 0), SERF_AGENT_NOT_PENDING);
    is("close", serf_agent_close(&agent), SERF_AGENT_OK);
}

static void packets(void) {
    struct serf_agent agent = {0};
    size_t len = 0, other = 0;
    is("open", opened(&agent, "a", ""), SERF_AGENT_OK);
    is("no packet", serf_agent_packet(&agent, &len, NULL, 0), SERF_AGENT_NOTHING);
    is("receive nothing", serf_agent_receive(&agent, 1, NULL, 0, false), SERF_AGENT_NO_MESSAGE);
    is("merge nothing", serf_agent_merge(&agent, NULL, 0, false), SERF_AGENT_NO_MESSAGE);
    is("fire too large", serf_agent_fire(&agent, room, 513, NULL, 0, false), SERF_AGENT_TOO_LARGE);
    is("fire nothing", serf_agent_fire(&agent, NULL, 0, NULL, 0, false), SERF_AGENT_OK);
    written(&agent);
    is("its packet", serf_agent_packet(&agent, &len, room, sizeof room), SERF_AGENT_OK);
    is("its length alone", serf_agent_packet(&agent, &other, NULL, 0), SERF_AGENT_OK);
    is("the same", (uint32_t)(len == other), 1);
    is("no ack", serf_agent_ack(&agent, &other, NULL, 0), SERF_AGENT_NOTHING);
    is("merge an event", serf_agent_merge(&agent, room, len, false), SERF_AGENT_NOT_PUSH_PULL);
    is("close", serf_agent_close(&agent), SERF_AGENT_OK);
}

static void answers(void) {
    struct serf_agent agent = {0};
    struct serf_agent_answer said = {0};
    size_t len = 0;
    is("no packet is no answer", serf_agent_answer(NULL, 0, &said, NULL, 0, NULL, 0), SERF_AGENT_NOTHING);
    is("open", opened(&agent, "a", ""), SERF_AGENT_OK);
    is("fire", fired(&agent, "x"), SERF_AGENT_OK);
    written(&agent);
    is("an event", serf_agent_packet(&agent, &len, room, sizeof room), SERF_AGENT_OK);
    is("an event is no answer", serf_agent_answer(room, len, &said, NULL, 0, NULL, 0), SERF_AGENT_NOTHING);
    is("query", asked(&agent, 1000), SERF_AGENT_OK);
    written(&agent);
    is("its own ack", serf_agent_ack(&agent, &len, room, sizeof room), SERF_AGENT_OK);
    is("an ack is an answer", serf_agent_answer(room, len, &said, NULL, 0, NULL, 0), SERF_AGENT_OK);
    is("what it says", (uint32_t)(said.is_ack && said.id == 7 && said.from_len == 1), 1);
    is("a cut ack is none", serf_agent_answer(room, len - 1, &said, NULL, 0, NULL, 0), SERF_AGENT_NOTHING);
    is("close", serf_agent_close(&agent), SERF_AGENT_OK);
}

/* A packet that isn't a message, with this error. */
static void has_fault(const char *what, const void *packet, size_t len, uint32_t kind, size_t offset, uint8_t byte) {
    struct serf_agent_packet_error fault = {77, 78, 79};
    is(what, serf_agent_packet_error(packet, len, &fault), SERF_AGENT_OK);
    is(what, fault.kind, kind);
    is("its offset", (uint32_t)fault.offset, (uint32_t)offset);
    is("its byte", fault.byte, byte);
}

/* A packet that is a message: nothing is said of it, and nothing written. */
static void has_none(const char *what, const void *packet, size_t len) {
    struct serf_agent_packet_error fault = {77, 78, 79};
    is(what, serf_agent_packet_error(packet, len, &fault), SERF_AGENT_NOTHING);
    is("the old value is unchanged", (uint32_t)(fault.offset == 77 && fault.kind == 78 && fault.byte == 79), 1);
}

#define BYTES(literal) literal, sizeof(literal) - 1

/* Each error, in a packet of an event or of a response. */
static void faults(void) {
    has_fault("nothing", NULL, 0, SERF_AGENT_ERROR_EMPTY, 0, 0);
    has_fault("a type that no message has", BYTES("\x63"), SERF_AGENT_ERROR_UNKNOWN_TYPE, 0, 99);
    has_fault("that type, and bytes", BYTES("\xff\x80\x00"), SERF_AGENT_ERROR_UNKNOWN_TYPE, 0, 255);
    has_fault("a type alone", BYTES("\x03"), SERF_AGENT_ERROR_TRUNCATED, 1, 0);
    has_fault("a map without its entry", BYTES("\x03\x81"), SERF_AGENT_ERROR_TRUNCATED, 2, 0);
    has_fault("a cut text", BYTES("\x03\x81\xa5LTim"), SERF_AGENT_ERROR_TRUNCATED, 2, 0);
    has_fault("c1", BYTES("\x03\xc1"), SERF_AGENT_ERROR_UNSUPPORTED, 1, 0xc1);
    has_fault("a float", BYTES("\x03\x81\xa5LTime\xca\0\0\0\0"), SERF_AGENT_ERROR_UNSUPPORTED, 8, 0xca);
    has_fault("nine arrays", BYTES("\x03\x91\x91\x91\x91\x91\x91\x91\x91\x91\xc0"), SERF_AGENT_ERROR_TOO_DEEP, 9, 0);
    has_fault("a byte after the value", BYTES("\x03\x80\x00"), SERF_AGENT_ERROR_TRAILING, 2, 0);
    has_fault("a number", BYTES("\x03\x07"), SERF_AGENT_ERROR_NOT_A_MAP, 0, 0);
    has_fault("nil", BYTES("\x03\xc0"), SERF_AGENT_ERROR_NOT_A_MAP, 0, 0);
    has_fault("a number as a key", BYTES("\x03\x81\x01\x01"), SERF_AGENT_ERROR_BAD_KEY, 2, 0);
    has_fault("a key twice", BYTES("\x03\x82\xa5LTime\x01\xa5LTime\x01"), SERF_AGENT_ERROR_TWICE, 9, 0);
    has_fault("a text as a time", BYTES("\x03\x81\xa5LTime\xa1x"), SERF_AGENT_ERROR_WRONG_KIND, 8, 0);
    has_fault("an ID of 33 bits", BYTES("\x05\x81\xa2ID\xcf\0\0\0\1\0\0\0\0"), SERF_AGENT_ERROR_OUT_OF_RANGE, 5, 0);
    has_fault("2^64 - 1 as a time", BYTES("\x03\x81\xa5LTime\xcf\xff\xff\xff\xff\xff\xff\xff\xff"), SERF_AGENT_ERROR_MAX_TIME, 8, 0);
}

/* Messages, in spellings that the library itself doesn't write. */
static void spellings(void) {
    has_none("all fields absent", BYTES("\x03\x80"));
    has_none("a time", BYTES("\x03\x81\xa5LTime\x07"));
    has_none("nil as a time", BYTES("\x03\x81\xa5LTime\xc0"));
    has_none("a time of eight bytes", BYTES("\x03\x81\xa5LTime\xcf\0\0\0\0\0\0\0\7"));
    has_none("a signed time", BYTES("\x03\x81\xa5LTime\xd0\x07"));
    has_none("a map of 16 bits, and a key of 8", BYTES("\x03\xde\0\1\xd9\5LTime\x07"));
    has_none("a map of 32 bits, and a key of 16", BYTES("\x03\xdf\0\0\0\1\xda\0\5LTime\x07"));
    has_none("a key that no field has", BYTES("\x03\x81\xa1x\x90"));
    has_none("a state", BYTES("\x02\x81\xa5LTime\x07"));
    has_none("a query", BYTES("\x04\x81\xa7Timeout\xff"));
    has_none("a foreign type alone", BYTES("\x00"));
    has_none("a foreign type, and any bytes", BYTES("\x09\xc1\xc1"));
}

/* The library's own packets: none of them has an error, and each has one if it is cut off. */
static void own_packets(void) {
    struct serf_agent agent = {0};
    size_t len = 0;
    is("open", opened(&agent, "a", ""), SERF_AGENT_OK);
    is("fire", fired(&agent, "x"), SERF_AGENT_OK);
    written(&agent);
    is("its packet", serf_agent_packet(&agent, &len, room, sizeof room), SERF_AGENT_OK);
    has_none("an event", room, len);
    has_fault("an event and a byte", room, len + 1, SERF_AGENT_ERROR_TRAILING, len, 0);
    is("the state", serf_agent_local_state(&agent), SERF_AGENT_OK);
    is("its packet", serf_agent_packet(&agent, &len, room, sizeof room), SERF_AGENT_OK);
    has_none("a state", room, len);
    is("query", asked(&agent, 1000), SERF_AGENT_OK);
    written(&agent);
    is("its packet", serf_agent_packet(&agent, &len, room, sizeof room), SERF_AGENT_OK);
    has_none("a query", room, len);
    is("its own ack", serf_agent_ack(&agent, &len, room, sizeof room), SERF_AGENT_OK);
    has_none("an ack", room, len);
    has_fault("a cut ack", room, len - 1, SERF_AGENT_ERROR_TRUNCATED, len - 1, 0);
    is("close", serf_agent_close(&agent), SERF_AGENT_OK);
}

/* A query of this agent's own that another node acked, answered with "yes", and that is closed. */
static void asked_and_closed(struct serf_agent *agent) {
    struct serf_agent other = {0};
    struct serf_agent_result result = {0};
    struct serf_agent_closed closed;
    size_t len = 0, count = 9;
    is("open another", opened(&other, "bb", ""), SERF_AGENT_OK);
    is("query", asked(agent, 1000), SERF_AGENT_OK);
    written(agent);
    is("its packet", serf_agent_packet(agent, &len, room, sizeof room), SERF_AGENT_OK);
    is("it comes", serf_agent_receive(&other, 6, room, len, false), SERF_AGENT_OK);
    written(&other);
    is("its result", serf_agent_result(&other, &result), SERF_AGENT_OK);
    is("its ack", serf_agent_ack(&other, &len, room, sizeof room), SERF_AGENT_OK);
    is("the ack arrives", serf_agent_receive(agent, 7, room, len, false), SERF_AGENT_OK);
    is("respond", serf_agent_respond(&other, 8, result.handed, (const uint8_t *)"yes", 3), SERF_AGENT_OK);
    is("the response", serf_agent_packet(&other, &len, room, sizeof room), SERF_AGENT_OK);
    is("it comes", serf_agent_receive(agent, 9, room, len, false), SERF_AGENT_OK);
    is("none is due at the deadline", serf_agent_close_due(agent, 1005, &count), SERF_AGENT_OK);
    is("none is closed", (uint32_t)count, 0);
    is("so none can be read", serf_agent_closed(agent, 0, &closed), SERF_AGENT_NOTHING);
    is("one is due after it", serf_agent_close_due(agent, 1006, &count), SERF_AGENT_OK);
    is("one is closed", (uint32_t)count, 1);
    is("its result", serf_agent_result(agent, &result), SERF_AGENT_OK);
    is("closed queries", result.kind, SERF_AGENT_RESULT_CLOSED);
    is("close another", serf_agent_close(&other), SERF_AGENT_OK);
}

static void closings(void) {
    struct serf_agent agent = {0};
    struct serf_agent_closed closed = {0};
    struct serf_agent_response response = {0};
    static const size_t wrong[] = {1, 2, UINT32_MAX, SIZE_MAX};
    uint8_t from[2] = {0}, payload[3] = {0};
    size_t len = 0;
    is("open", opened(&agent, "a", ""), SERF_AGENT_OK);
    asked_and_closed(&agent);
    is("closed", serf_agent_closed(&agent, 0, &closed), SERF_AGENT_OK);
    is("what it was",
       (uint32_t)(closed.time == 1 && closed.deadline == 1005 && closed.id == 7 && closed.acks == 1 && closed.responses == 1), 1);
    for (size_t i = 0; i < sizeof wrong / sizeof *wrong; i++) {
        is("a wrong index", serf_agent_closed(&agent, wrong[i], &closed), SERF_AGENT_NOTHING);
        is("a wrong index", serf_agent_closed_ack(&agent, wrong[i], 0, &len, NULL, 0), SERF_AGENT_NOTHING);
        is("a wrong index", serf_agent_closed_response(&agent, wrong[i], 0, &response, NULL, 0, NULL, 0), SERF_AGENT_NOTHING);
        is("a wrong number", serf_agent_closed_ack(&agent, 0, wrong[i], &len, NULL, 0), SERF_AGENT_NOTHING);
        is("a wrong number", serf_agent_closed_response(&agent, 0, wrong[i], &response, NULL, 0, NULL, 0), SERF_AGENT_NOTHING);
    }
    is("an ack's length alone", serf_agent_closed_ack(&agent, 0, 0, &len, NULL, 0), SERF_AGENT_OK);
    is("its length", (uint32_t)len, 2);
    is("an ack in a small room", serf_agent_closed_ack(&agent, 0, 0, &len, from, 1), SERF_AGENT_OK);
    is("as much as fits", (uint32_t)(len == 2 && from[0] == 'b' && from[1] == 0), 1);
    is("a response's lengths alone", serf_agent_closed_response(&agent, 0, 0, &response, NULL, 0, NULL, 0), SERF_AGENT_OK);
    is("its lengths", (uint32_t)(response.from_len == 2 && response.payload_len == 3), 1);
    is("a response with small buffers", serf_agent_closed_response(&agent, 0, 0, &response, from, 1, payload, 2), SERF_AGENT_OK);
    is("as much as fits", (uint32_t)(from[1] == 0 && payload[1] == 'e' && payload[2] == 0), 1);
    is("a response", serf_agent_closed_response(&agent, 0, 0, &response, from, 2, payload, 3), SERF_AGENT_OK);
    is("what it says", (uint32_t)(memcmp(from, "bb", 2) == 0 && memcmp(payload, "yes", 3) == 0), 1);
    is("another call", fired(&agent, "x"), SERF_AGENT_OK);
    is("what was closed waits for the line too", serf_agent_closed(&agent, 0, &closed), SERF_AGENT_PENDING);
    written(&agent);
    is("and is removed", serf_agent_closed(&agent, 0, &closed), SERF_AGENT_NOTHING);
    is("close", serf_agent_close(&agent), SERF_AGENT_OK);
}

static void limits(void) {
    struct serf_agent agent = {0};
    bool should = false;
    is("open", opened(&agent, "a", "event-clock: 1\nevent-clock: 2\n"), SERF_AGENT_OK);
    is("should_compact above the limit", serf_agent_should_compact(&agent, 29, &should), SERF_AGENT_OK);
    is("it should", should, 1);
    is("should_compact at the limit", serf_agent_should_compact(&agent, 30, &should), SERF_AGENT_OK);
    is("it shouldn't", should, 0);
    is("should_compact at the largest limit", serf_agent_should_compact(&agent, UINT64_MAX, &should), SERF_AGENT_OK);
    is("it shouldn't", should, 0);
    is("compact", serf_agent_compact(&agent), SERF_AGENT_OK);
    written(&agent);
    is("should_compact once more", serf_agent_should_compact(&agent, 0, &should), SERF_AGENT_OK);
    is("it shouldn't", should, 0);
    is("close", serf_agent_close(&agent), SERF_AGENT_OK);
}

static uint64_t drawn(void) {
    static uint64_t state = 1;
    uint64_t z = (state += 0x9e3779b97f4a7c15u);
    z = (z ^ (z >> 30)) * 0xbf58476d1ce4e5b9u;
    z = (z ^ (z >> 27)) * 0x94d049bb133111ebu;
    return z ^ (z >> 31);
}

/* One packet: any bytes, or a sound one with some of its bytes changed, or cut. */
static size_t any_packet(uint8_t *to, const uint8_t *sound, size_t len) {
    size_t count = drawn() % 64;
    if (len == 0 || drawn() % 2) {
        for (size_t i = 0; i < count; i++) {
            to[i] = (uint8_t)drawn();
        }
        return count;
    }
    memcpy(to, sound, len);
    for (size_t i = drawn() % 4; i > 0; i--) {
        to[drawn() % len] = (uint8_t)drawn();
    }
    return drawn() % 2 ? len : drawn() % len;
}

static size_t sound_packet(uint8_t *to, size_t size) {
    struct serf_agent other = {0};
    size_t len = 0;
    opened(&other, "b", "");
    if (drawn() % 3 == 0) {
        serf_agent_local_state(&other);
    } else if (drawn() % 2) {
        fired(&other, "deploy");
    } else {
        asked(&other, 1000);
    }
    written(&other);
    serf_agent_packet(&other, &len, to, size);
    serf_agent_close(&other);
    return len;
}

/* Any bytes in any order, each in memory of exactly its length: whatever the calls return, they touch nothing else. */
static void any_bytes(int count) {
    struct serf_agent agent = {0};
    struct serf_agent_result result;
    struct serf_agent_pending_query handed;
    static uint8_t sound[4096], any[4096];
    int unknown = 0, faulty = 0;
    is("open", opened(&agent, "a", ""), SERF_AGENT_OK);
    for (int i = 0; i < count; i++) {
        size_t len = any_packet(any, sound, sound_packet(sound, sizeof sound));
        uint8_t *own = malloc(len);
        memcpy(own, any, len);
        struct serf_agent_answer said;
        struct serf_agent_packet_error fault = {0};
        serf_agent_answer(own, len, &said, room, 8, room, 8);
        bool has_one = serf_agent_packet_error(own, len, &fault) == SERF_AGENT_OK;
        uint32_t code = drawn() % 4 ? serf_agent_receive(&agent, drawn() % 4, own, len, false)
                                    : serf_agent_merge(&agent, own, len, drawn() % 2);
        free(own);
        written(&agent);
        unknown += code > SERF_AGENT_NOT_PENDING || serf_agent_result(&agent, &result) != SERF_AGENT_OK;
        faulty += has_one != (code == SERF_AGENT_NO_MESSAGE) || has_one != (fault.kind != 0) || fault.offset > len;
        if (result.handed != 0) {
            serf_agent_pending_query(&agent, result.handed, &handed, room, 8, room, 8, room, 8, room, 8);
            serf_agent_respond(&agent, drawn() % 4, result.handed, room, drawn() % 1100);
        }
    }
    is("no unknown code", (uint32_t)unknown, 0);
    is("an error if and only if there is no message", (uint32_t)faulty, 0);
    is("close", serf_agent_close(&agent), SERF_AGENT_OK);
}

int main(int count, char **words) {
    empty_handles();
    openings();
    unwritten_bytes();
    numbers_of_queries();
    packets();
    answers();
    faults();
    spellings();
    own_packets();
    closings();
    limits();
    any_bytes(count > 1 ? atoi(words[1]) : 20000);
    printf("%d passed, %d failed\n", passed, failed);
    return failed != 0;
}
