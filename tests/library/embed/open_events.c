/* The events that a text leaves open, and the lines about handlers: with little room, times that aren't valid, and no memory.
 *
 * Linked with malloc and realloc wrapped. Prints `FAILED ..` for each that doesn't hold, and `N passed, M failed`. */
#include "counts.h"
#include "serf_agent.h"

#include <stdlib.h>
#include <string.h>

void *__real_malloc(size_t size);
void *__real_realloc(void *old, size_t size);
void *__wrap_malloc(size_t size);
void *__wrap_realloc(void *old, size_t size);

/* How many requests are granted from now on (below 0: all). */
static long granted = -1;

static bool is_refused(void) {
    if (granted == 0) {
        return true;
    }
    granted -= granted > 0;
    return false;
}

void *__wrap_malloc(size_t size) {
    return is_refused() ? NULL : __real_malloc(size);
}

void *__wrap_realloc(void *old, size_t size) {
    return is_refused() ? NULL : __real_realloc(old, size);
}

#define BYTES(literal) (const uint8_t *)literal, sizeof(literal) - 1

/* What a host's own lines say of four events: the first is done, the second has begun, and the other two wait. */
#define TRACKED                                                                                                                    \
    "event-clock: 01\n#event 1 61 31\n#done 1\nevent-clock: 02\n#event 2 62 32\nevent-clock: 03\n#event 3 63 3333\n"               \
    "#begun 2 62 32\nalive: b 127.0.0.1:7946\n#begun 3 63 3333\n#open 4 64 \n#done 2 62 32\n#event 5 6565 35\n"

static struct serf_agent_open_events all;
static struct serf_agent_open_event events[4];
static uint8_t texts[64];

static uint32_t read_text(const uint8_t *text, size_t len, size_t events_room, size_t texts_room) {
    memset(&all, 7, sizeof all);
    memset(events, 7, sizeof events);
    memset(texts, 7, sizeof texts);
    return serf_agent_open_events(text, len, &all, events, events_room, texts, texts_room);
}

/* Whether all bytes from `from` on are those that were there before. */
static uint32_t stays(const void *bytes, size_t from, size_t len) {
    for (size_t at = from; at < len; at++) {
        if (((const uint8_t *)bytes)[at] != 7) {
            return 0;
        }
    }
    return 1;
}

static void is_event(size_t at, uint64_t time, size_t name_len, size_t payload_len, bool begun) {
    const struct serf_agent_open_event *event = &events[at];
    is("an open event",
       event->time == time && event->name_len == name_len && event->payload_len == payload_len && event->begun == begun, 1);
}

static void reads(void) {
    is("a text", read_text(BYTES(TRACKED), 4, sizeof texts), SERF_AGENT_OK);
    is("how many are open", all.events == 3 && all.texts_len == 7 && all.tracked, 1);
    is_event(0, 3, 1, 2, true);
    is_event(1, 4, 1, 0, false);
    is_event(2, 5, 2, 1, false);
    is("no fourth event", stays(&events[3], 0, sizeof events[3]), 1);
    is("their texts", memcmp(texts, "c33dee5", 7) == 0 && stays(texts, 7, sizeof texts), 1);
    is("no text", read_text(NULL, 0, 4, sizeof texts), SERF_AGENT_OK);
    is("nothing is open", all.events == 0 && all.texts_len == 0 && !all.tracked, 1);
    is("a text without a line #done TIME", read_text(BYTES("#event 1 61 31\n#begun 1 61 31\n"), 4, sizeof texts), SERF_AGENT_OK);
    is("it says nothing of handlers", all.events == 0 && all.texts_len == 0 && !all.tracked, 1);
    is("a text after a line #done TIME", read_text(BYTES("#done 0\n"), 4, sizeof texts), SERF_AGENT_OK);
    is("nothing is open, but it is tracked", all.events == 0 && all.texts_len == 0 && all.tracked, 1);
    is("any bytes", read_text(BYTES("\0\xff#done 0\n#open 1 6\n\n#event 1 61"), 4, sizeof texts), SERF_AGENT_OK);
    is("they say nothing", all.events == 0 && !all.tracked, 1);
}

static void reads_in_little_room(void) {
    for (size_t events_room = 0; events_room <= 3; events_room++) {
        for (size_t texts_room = 0; texts_room <= 8; texts_room++) {
            size_t copied = texts_room < 7 ? texts_room : 7;
            is("a text", read_text(BYTES(TRACKED), events_room, texts_room), SERF_AGENT_OK);
            is("the whole numbers all the same", all.events == 3 && all.texts_len == 7 && all.tracked, 1);
            is("as many events as fit", stays(events, events_room * sizeof *events, sizeof events), 1);
            is("as many bytes as fit", memcmp(texts, "c33dee5", copied) == 0 && stays(texts, copied, sizeof texts), 1);
            if (events_room > 0) {
                is_event(0, 3, 1, 2, true);
            }
        }
    }
}

static void reads_without_memory(void) {
    uint32_t code = SERF_AGENT_OUT_OF_MEMORY;
    long tried = 0;
    for (; code == SERF_AGENT_OUT_OF_MEMORY && tried < 1000; tried++) {
        granted = tried;
        code = read_text(BYTES(TRACKED), 4, sizeof texts);
        granted = -1;
        if (code == SERF_AGENT_OUT_OF_MEMORY) {
            is("nothing was written", stays(&all, 0, sizeof all) && stays(events, 0, sizeof events) && stays(texts, 0, sizeof texts), 1);
        }
    }
    is("memory was refused, and then there was enough", tried > 3 && code == SERF_AGENT_OK && all.events == 3, 1);
}

/* Each line about an event named "deploy" with the payload "v1", by its number, and the line about all events. */
enum { LINES = 4 };

static const char *const lines[LINES] = {
    "#open 12 6465706c6f79 7631\n", "#begun 12 6465706c6f79 7631\n", "#done 12 6465706c6f79 7631\n", "#done 12\n"
};

static size_t len;
static uint8_t line[64];

static uint32_t write_line(size_t number, uint64_t time, size_t room) {
    const uint8_t *name = (const uint8_t *)"deploy", *payload = (const uint8_t *)"v1";
    len = 77;
    memset(line, 7, sizeof line);
    switch (number) {
    case 0:
        return serf_agent_open_line(time, name, 6, payload, 2, &len, line, room);
    case 1:
        return serf_agent_begun_line(time, name, 6, payload, 2, &len, line, room);
    case 2:
        return serf_agent_done_line(time, name, 6, payload, 2, &len, line, room);
    default:
        return serf_agent_done_up_to_line(time, &len, line, room);
    }
}

static void writes(size_t number) {
    size_t whole = strlen(lines[number]);
    for (size_t room = 0; room <= sizeof line; room++) {
        size_t copied = room < whole ? room : whole;
        is("a line", write_line(number, 12, room), SERF_AGENT_OK);
        is("its length", len == whole, 1);
        is("as much of it as fits", memcmp(line, lines[number], copied) == 0 && stays(line, copied, sizeof line), 1);
    }
    is("a line at the last valid time", write_line(number, UINT64_MAX - 1, sizeof line), SERF_AGENT_OK);
    is("it has that time", strstr((const char *)line, "18446744073709551614") != NULL, 1);
    is("a time that isn't valid", write_line(number, UINT64_MAX, sizeof line), SERF_AGENT_EXHAUSTED);
    is("nothing was written", len == 77 && stays(line, 0, sizeof line), 1);
    uint32_t code = SERF_AGENT_OUT_OF_MEMORY;
    long tried = 0;
    for (; code == SERF_AGENT_OUT_OF_MEMORY && tried < 1000; tried++) {
        granted = tried;
        code = write_line(number, 12, sizeof line);
        granted = -1;
        if (code == SERF_AGENT_OUT_OF_MEMORY) {
            is("no memory, and nothing was written", len == 77 && stays(line, 0, sizeof line), 1);
        }
    }
    is("memory was refused, and then there was enough", tried > 1 && code == SERF_AGENT_OK && len == whole, 1);
}

/* An event's life in a file: each line that is written is read as what it says. */
static void reads_what_was_written(void) {
    static const size_t written[] = {0, 1, 2}, open_after[] = {1, 1, 0};
    uint8_t text[256];
    size_t end = 0;
    is("the first line", write_line(3, 12, sizeof line), SERF_AGENT_OK);
    memcpy(text, line, len);
    end += len;
    for (size_t at = 0; at < 3; at++) {
        is("a line", write_line(written[at], 12, sizeof line), SERF_AGENT_OK);
        memcpy(text + end, line, len);
        end += len;
        is("the text", read_text(text, end, 4, sizeof texts), SERF_AGENT_OK);
        is("what is open", all.events == open_after[at] && all.tracked, 1);
        if (all.events == 1) {
            is_event(0, 12, 6, 2, at == 1);
            is("its texts", memcmp(texts, "deployv1", 8) == 0, 1);
        }
    }
}

/* An agent that keeps events reads the same from a text with these lines and without them. */
static void skips_the_lines(void) {
    static const struct serf_agent_settings settings = {8, 8, 512, 1024, 1024, 8, 8, false, true};
    static const char *const read[] = {
        "event-clock: 01\n#event 1 61 31\nevent-clock: 02\n#event 2 62 32\n",
        "event-clock: 01\n#event 1 61 31\n#done 1\n#open 9 39 39\nevent-clock: 02\n#begun 1 61 31\n#event 2 62 32\n#done 1 61 31\n",
    };
    struct serf_agent_clocks clocks[2];
    struct serf_agent_bytes about[2];
    uint8_t made[2][256] = {{0}};
    for (size_t at = 0; at < 2; at++) {
        struct serf_agent agent = {0};
        const uint8_t *text = (const uint8_t *)read[at];
        memset(&clocks[at], 0, sizeof clocks[at]);
        memset(&about[at], 0, sizeof about[at]);
        is("open", serf_agent_open(&agent, (const uint8_t *)"a", 1, &settings, text, strlen(read[at])), SERF_AGENT_OK);
        is("clocks", serf_agent_clocks(&agent, &clocks[at]), SERF_AGENT_OK);
        is("compact", serf_agent_compact(&agent), SERF_AGENT_OK);
        is("the text", serf_agent_pending(&agent, &about[at], made[at], sizeof made[at]), SERF_AGENT_OK);
        is("close", serf_agent_close(&agent), SERF_AGENT_OK);
    }
    is("the same clocks", memcmp(&clocks[0], &clocks[1], sizeof clocks[0]) == 0, 1);
    is("the same text", about[0].len == about[1].len && memcmp(made[0], made[1], about[0].len) == 0, 1);
}

int main(void) {
    reads();
    reads_in_little_room();
    reads_without_memory();
    for (size_t number = 0; number < LINES; number++) {
        writes(number);
    }
    reads_what_was_written();
    skips_the_lines();
    printf("%d passed, %d failed\n", passed, failed);
    return failed != 0;
}
