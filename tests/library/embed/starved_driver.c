/* Calls that may run out of memory: `starved_driver FOLDER`.
 *
 * An agent in FOLDER fires five events, and another one merges its state twice. What each merge hands out is printed, a line
 * `TIME NAME` for each event, and then a line that says how the merge ended: `ok` or `out of memory`.
 *
 * The other one then makes three queries of two nodes each, a1 and a2, b1 and b2, c1 and c2, and three states that name
 * these nodes: both as members, and the second as one that left. A line `query PACKET` or `state PACKET` has each packet in
 * hexadecimal digits, or `refused` in its place. What was refused is given up, and nothing of it is in a later packet.
 * Between the first query and the second, a query is received and handed out: the call after it needs memory. */
#include "serf_agent.h"
#include "serf_agent_store.h"

#include <stdio.h>
#include <stdlib.h>
#include <string.h>

enum { ROOM = 65536 };

struct node {
    struct serf_agent agent;
    struct serf_agent_store store;
};

static void demand(bool holds, const char *what) {
    if (!holds) {
        fprintf(stderr, "starved_driver: %s\n", what);
        exit(3);
    }
}

/* A call's code; what it left for the file is on the disk when this returns. */
static uint32_t settled(struct node *node, uint32_t code) {
    demand(serf_agent_store_settle(&node->store, &node->agent) == SERF_AGENT_STORE_OK, "the file");
    return code;
}

static void open_node(struct node *node, const char *folder, const char *name) {
    static const struct serf_agent_settings settings = {512, 512, 512, 1024, 1024, 1024, 1024, false, false};
    static char path[4096];
    uint8_t *text;
    size_t len;
    snprintf(path, sizeof path, "%s/%s.snapshot", folder, name);
    demand(serf_agent_store_open(&node->store, path) == SERF_AGENT_STORE_OK, path);
    demand(serf_agent_store_read(&node->store, &text, &len) == SERF_AGENT_STORE_OK, path);
    const uint8_t *bytes = (const uint8_t *)name;
    demand(settled(node, serf_agent_open(&node->agent, bytes, strlen(name), &settings, text, len)) == SERF_AGENT_OK, "open");
    free(text);
}

/* Merges, and handles what was handed out before it checks the code. */
static void merge(struct node *node, const uint8_t *state, size_t len) {
    struct serf_agent_event event;
    struct serf_agent_result result;
    uint8_t name[512], payload[512];
    uint32_t code = settled(node, serf_agent_merge(&node->agent, state, len, false));
    demand(code == SERF_AGENT_OK || code == SERF_AGENT_OUT_OF_MEMORY, "merge");
    demand(serf_agent_result(&node->agent, &result) == SERF_AGENT_OK, "result");
    for (size_t i = 0; result.kind == SERF_AGENT_RESULT_MERGED && i < result.events; i++) {
        demand(serf_agent_event(&node->agent, i, &event, name, sizeof name, payload, sizeof payload) == SERF_AGENT_OK, "event");
        printf("%llu %.*s\n", (unsigned long long)event.time, (int)event.name_len, name);
    }
    printf("%s\n", code == SERF_AGENT_OK ? "ok" : "out of memory");
}

static uint32_t ask(struct node *node, uint32_t id, int64_t timeout) {
    struct serf_agent_params params = {.timeout = timeout};
    return settled(node, serf_agent_query(&node->agent, 1, id, (const uint8_t *)"load", 4, NULL, 0, NULL, 0, &params));
}

/* A query of two nodes. One of no time comes before it, and forgets the filters of a query that was given up. */
static uint32_t query(struct node *node, char letter) {
    uint32_t code = ask(node, 7, 0);
    demand(code == SERF_AGENT_NO_TIME || code == SERF_AGENT_OUT_OF_MEMORY, "query of no time");
    for (char number = '1'; code != SERF_AGENT_OUT_OF_MEMORY && number <= '2'; number++) {
        const uint8_t filter[] = {0, 0x91, 0xa7, 'n', 'o', 'd', 'e', '-', (uint8_t)letter, (uint8_t)number};
        code = serf_agent_add_filter(&node->agent, filter, sizeof filter);
    }
    return code == SERF_AGENT_OK ? ask(node, 7, 9) : code;
}

/* A state with two members, the second of which left. One that nobody reads comes before it, and forgets the members of a
 * state that was given up. */
static uint32_t state(struct node *node, char letter) {
    uint32_t code = settled(node, serf_agent_local_state(&node->agent));
    uint8_t name[] = {'n', 'o', 'd', 'e', '-', (uint8_t)letter, 0};
    for (uint8_t number = 1; code == SERF_AGENT_OK && number <= 2; number++) {
        name[sizeof name - 1] = '0' + number;
        code = serf_agent_add_status(&node->agent, name, sizeof name, number + 2);
    }
    code = code == SERF_AGENT_OK ? serf_agent_add_left(&node->agent, name, sizeof name) : code;
    return code == SERF_AGENT_OK ? settled(node, serf_agent_local_state(&node->agent)) : code;
}

static size_t packet_of(struct node *node, uint8_t *packet) {
    size_t len;
    demand(serf_agent_packet(&node->agent, &len, packet, ROOM) == SERF_AGENT_OK && len <= ROOM, "packet");
    return len;
}

/* The packet of a call, unless it had no memory. */
static void put(const char *kind, struct node *node, uint32_t code) {
    static uint8_t packet[ROOM];
    demand(code == SERF_AGENT_OK || code == SERF_AGENT_OUT_OF_MEMORY, kind);
    size_t len = code == SERF_AGENT_OK ? packet_of(node, packet) : 0;
    printf("%s %s", kind, code == SERF_AGENT_OK ? "" : "refused");
    for (size_t i = 0; i < len; i++) {
        printf("%02x", packet[i]);
    }
    putchar('\n');
}

int main(int count, char **words) {
    static struct node one, other;
    static uint8_t whole[ROOM], load[ROOM];
    demand(count == 2, "expected a folder as the argument");
    open_node(&one, words[1], "one");
    for (int i = 0; i < 5; i++) {
        uint8_t name[2] = {'e', (uint8_t)('0' + i)};
        demand(settled(&one, serf_agent_fire(&one.agent, name, 2, name, 2, false)) == SERF_AGENT_OK, "fire");
    }
    demand(settled(&one, serf_agent_local_state(&one.agent)) == SERF_AGENT_OK, "local_state");
    size_t len = packet_of(&one, whole);
    demand(ask(&one, 8, 9) == SERF_AGENT_OK, "query");
    size_t load_len = packet_of(&one, load);
    open_node(&other, words[1], "other");
    merge(&other, whole, len);
    merge(&other, whole, len);
    put("query", &other, query(&other, 'a'));
    demand(settled(&other, serf_agent_receive(&other.agent, 1, load, load_len, false)) == SERF_AGENT_OK, "receive");
    put("query", &other, query(&other, 'b'));
    put("query", &other, query(&other, 'c'));
    for (char letter = 'a'; letter <= 'c'; letter++) {
        put("state", &other, state(&other, letter));
    }
    serf_agent_close(&one.agent);
    serf_agent_close(&other.agent);
    serf_agent_store_close(&one.store);
    serf_agent_store_close(&other.store);
    return 0;
}
