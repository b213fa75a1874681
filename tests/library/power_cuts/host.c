/* A host over the store of bindings/c, driven by lines: tests/library/power_cuts/hosts.py says which. */
#include "serf_agent.h"
#include "serf_agent_store.h"
#include "tracking.h"

#include <stdio.h>
#include <stdlib.h>
#include <string.h>

enum { ROOM = 1 << 14 };

static struct serf_agent agent;
static struct serf_agent_store store;
static uint64_t asked;
static bool is_tracked;

static size_t bytes_of(const char *hex, uint8_t *to) {
    size_t len = 0;
    for (unsigned byte; sscanf(hex, "%2x", &byte) == 1; hex += 2) {
        to[len++] = (uint8_t)byte;
    }
    return len;
}

/* Each line is one write. */
static void say(const char *head, const uint8_t *bytes, size_t len) {
    printf("%s", head);
    for (size_t i = 0; i < len; i++) {
        printf("%02x", bytes[i]);
    }
    printf("\n");
    fflush(stdout);
}

static void say_event(const char *word, uint64_t time, const uint8_t *name, size_t len) {
    char head[32];
    snprintf(head, sizeof head, "%s %llu ", word, (unsigned long long)time);
    say(head, name, len);
}

static void hand_out_events(void) {
    struct serf_agent_event event;
    uint8_t name[ROOM], none;
    for (size_t i = 0; serf_agent_event(&agent, i, &event, name, sizeof name, &none, 0) == SERF_AGENT_OK; i++) {
        say_event("e", event.time, name, event.name_len);
        if (is_tracked) {
            tracking_hand_out(event.time, name, event.name_len);
        }
    }
}

static void hand_out_query(void) {
    struct serf_agent_result result;
    struct serf_agent_pending_query handed;
    uint8_t none;
    char head[48];
    if (serf_agent_result(&agent, &result) == SERF_AGENT_OK && result.handed != 0 &&
        serf_agent_pending_query(&agent, result.handed, &handed, &none, 0, &none, 0, &none, 0, &none, 0) == SERF_AGENT_OK) {
        asked = result.handed;
        snprintf(head, sizeof head, "h %llu %u", (unsigned long long)handed.time, (unsigned)handed.id);
        say(head, &none, 0);
    }
}

static void hand_over_packets(void) {
    uint8_t packet[ROOM];
    size_t len;
    if (serf_agent_packet(&agent, &len, packet, sizeof packet) == SERF_AGENT_OK) {
        say("p ", packet, len);
    }
    if (serf_agent_ack(&agent, &len, packet, sizeof packet) == SERF_AGENT_OK) {
        say("p ", packet, len);
    }
}

/* Writes to the file what a call left for it, and then acts on the result. */
static enum serf_agent_store_error act(void) {
    enum serf_agent_store_error fault = is_tracked ? tracking_settle(&store, &agent) : serf_agent_store_settle(&store, &agent);
    if (fault == SERF_AGENT_STORE_OK) {
        hand_out_events();
        hand_out_query();
        hand_over_packets();
    }
    return fault;
}

static void end(void) {
    serf_agent_close(&agent);
    serf_agent_store_close(&store);
    asked = 0;
    is_tracked = false;
}

static enum serf_agent_store_error open_agent(const char *path, bool keeps_events) {
    const struct serf_agent_settings settings = {512, 512, 512, 1024, 1024, 1024, 1024, keeps_events, keeps_events};
    uint8_t *text;
    size_t len;
    end();
    enum serf_agent_store_error fault = serf_agent_store_open(&store, path);
    if (fault == SERF_AGENT_STORE_OK) {
        fault = serf_agent_store_read(&store, &text, &len);
    }
    if (fault == SERF_AGENT_STORE_OK) {
        serf_agent_open(&agent, (const uint8_t *)"host", 4, &settings, text, len);
        free(text);
        fault = act();
    }
    return fault;
}

/* An agent that keeps its events, in a host that says in the file what became of their handlers. */
static enum serf_agent_store_error open_tracked(const char *path) {
    static const struct serf_agent_settings settings = {8, 512, 512, 1024, 1024, 1024, 1024, false, true};
    uint8_t *text;
    size_t len;
    bool says_of_handlers;
    end();
    enum serf_agent_store_error fault = serf_agent_store_open(&store, path);
    if (fault == SERF_AGENT_STORE_OK) {
        fault = serf_agent_store_read(&store, &text, &len);
    }
    if (fault != SERF_AGENT_STORE_OK) {
        return fault;
    }
    says_of_handlers = tracking_open(text, len, say_event);
    serf_agent_open(&agent, (const uint8_t *)"host", 4, &settings, text, len);
    free(text);
    is_tracked = true;
    fault = tracking_settle(&store, &agent);
    return fault != SERF_AGENT_STORE_OK || says_of_handlers ? fault : tracking_start(&store, &agent);
}

static enum serf_agent_store_error open_store(const char *path) {
    end();
    return serf_agent_store_open(&store, path);
}

static uint32_t query(const uint8_t *name, size_t len) {
    static const struct serf_agent_params params = {1000, 0, 0, true, false, false};
    uint8_t none = 0;
    return serf_agent_query(&agent, 0, 7, name, len, &none, 0, &none, 0, &params);
}

/* A burst of packets, events and queries, each a word. */
static enum serf_agent_store_error burst(const char *words) {
    static const struct serf_agent_params params = {1000, 0, 0, true, false, false};
    static uint8_t bytes[ROOM];
    uint32_t answered;
    for (; words[0] != '\0'; words += strcspn(words, " "), words += words[0] == ' ') {
        size_t len = bytes_of(words + 1, bytes);
        if (words[0] == 'r') {
            serf_agent_burst_receive(&agent, 0, bytes, len, false);
        } else if (words[0] == 'f') {
            serf_agent_burst_fire(&agent, bytes, len, NULL, 0, false);
        } else {
            serf_agent_burst_query(&agent, 0, 7, bytes, len, NULL, 0, NULL, 0, &params);
        }
    }
    enum serf_agent_store_error fault = serf_agent_store_settle(&store, &agent);
    while (fault == SERF_AGENT_STORE_OK && serf_agent_next(&agent, &answered) == SERF_AGENT_OK) {
        hand_out_events();
        hand_out_query();
        hand_over_packets();
    }
    return fault;
}

static enum serf_agent_store_error done(const char *line) {
    static uint8_t bytes[ROOM];
    const char *word = strchr(line, ' ');
    word = word == NULL ? "" : word + 1;
    size_t len = strchr("bt", line[0]) != NULL ? 0 : bytes_of(word, bytes);
    if (strncmp(line, "open ", 5) == 0) {
        return open_store(word);
    } else if (strncmp(line, "append ", 7) == 0) {
        return serf_agent_store_append(&store, bytes, len);
    } else if (strncmp(line, "replace ", 8) == 0) {
        return serf_agent_store_replace(&store, bytes, len);
    }
    switch (line[0]) {
    case 'b':
        return burst(word);
    case 'o':
    case 'O':
        return open_agent(word, line[0] == 'O');
    case 't':
        return open_tracked(word);
    case 's':
        return tracking_begin(&store, say_event);
    case 'd':
        tracking_end(say_event);
        return SERF_AGENT_STORE_OK;
    case 'r':
        serf_agent_receive(&agent, 0, bytes, len, false);
        return act();
    case 'm':
    case 'j':
        serf_agent_merge(&agent, bytes, len, line[0] == 'j');
        return act();
    case 'f':
        serf_agent_fire(&agent, bytes, len, bytes, 0, false);
        return act();
    case 'q':
        query(bytes, len);
        return act();
    case 'p':
        serf_agent_respond(&agent, 0, asked, bytes, 0);
        return act();
    case 'c':
        is_tracked ? tracking_compact(&agent) : serf_agent_compact(&agent);
        return act();
    case 'k':
        serf_agent_save_member_clock(&agent);
        return act();
    default:
        end();
        return SERF_AGENT_STORE_OK;
    }
}

int main(void) {
    static char line[2 * ROOM];
    while (fgets(line, sizeof line, stdin) != NULL) {
        line[strcspn(line, "\n")] = '\0';
        if (line[0] == 'c' && strcmp(line, "close") == 0) {
            line[0] = 'x';
        }
        say(done(line) == SERF_AGENT_STORE_OK ? "ok" : "Failed", NULL, 0);
    }
    end();
    return 0;
}
