/* Two agents in one process, which the program joins by hand. An event is fired and arrives twice. Its receiver crashes and
 * restarts, and nothing is handed out twice. Then a query is answered and closed.
 *
 *     example FOLDER
 *
 * The two snapshots are in FOLDER. If they exist already, the agents resume from them. */
#include "serf_agent.h"
#include "serf_agent_store.h"

#include <stdio.h>
#include <stdlib.h>
#include <string.h>

enum { PACKET_ROOM = 65536 };

struct node {
    const char *name;
    char path[4096];
    struct serf_agent agent;
    struct serf_agent_store store;
};

static const struct serf_agent_settings settings = {
    .event_buffer = 512,
    .query_buffer = 512,
    .event_limit = 512,
    .query_limit = 1024,
    .response_limit = 1024,
    .responders = 1024,
    .per_time = 1024,
    .ignore_old = false,
    .keep_events = false,
};

/* Ends the program with status 1, because this call of the node failed. */
static void fail(const struct node *node, const char *call, const char *why) {
    fprintf(stderr, "example: %s: %s: %s\n", node->name, call, why);
    exit(1);
}

/* Writes the bytes that a call left for the file, and flushes them. Returns the call's code. */
static uint32_t flush_pending(struct node *node, uint32_t code) {
    enum serf_agent_store_error error = serf_agent_store_settle(&node->store, &node->agent);
    if (error != SERF_AGENT_STORE_OK) {
        fail(node, "the file", serf_agent_store_words(error));
    }
    return code;
}

/* Ends the program if this call of the node returned an error. */
static void demand_ok(struct node *node, const char *call, uint32_t code) {
    char code_text[32];
    if (code != SERF_AGENT_OK) {
        snprintf(code_text, sizeof code_text, "code %u", code);
        fail(node, call, code_text);
    }
}

/* Finishes a call that has to succeed: flushes the bytes that it left for the file, and checks its code. */
static void finish_call(struct node *node, const char *call, uint32_t code) {
    demand_ok(node, call, flush_pending(node, code));
}

/* Opens the node's file, and its agent on the text of the file. */
static void open_node(struct node *node) {
    uint8_t *text;
    size_t len;
    enum serf_agent_store_error error = serf_agent_store_open(&node->store, node->path);
    if (error == SERF_AGENT_STORE_OK) {
        error = serf_agent_store_read(&node->store, &text, &len);
    }
    if (error != SERF_AGENT_STORE_OK) {
        fail(node, node->path, serf_agent_store_words(error));
    }
    finish_call(node, "open", serf_agent_open(&node->agent, (const uint8_t *)node->name, strlen(node->name), &settings, text, len));
    free(text);
}

/* Ends the node as a crash of its process would. Only the file is left. */
static void crash(struct node *node) {
    serf_agent_close(&node->agent);
    serf_agent_store_close(&node->store);
}

/* Copies the packet to send that the node's last call made, and returns its length. */
static size_t packet_of(struct node *node, uint8_t packet[PACKET_ROOM]) {
    size_t len = 0;
    if (serf_agent_packet(&node->agent, &len, packet, PACKET_ROOM) != SERF_AGENT_OK || len > PACKET_ROOM) {
        fail(node, "packet", "there is none");
    }
    return len;
}

/* The handler of events. It prints them. */
static void handle_events(struct node *node) {
    struct serf_agent_event event;
    uint8_t name[512], payload[512];
    for (size_t i = 0; serf_agent_event(&node->agent, i, &event, name, sizeof name, payload, sizeof payload) == SERF_AGENT_OK; i++) {
        printf("%s handed out %.*s %.*s at %llu\n", node->name, (int)event.name_len, name, (int)event.payload_len, payload,
               (unsigned long long)event.time);
    }
}

/* One node merges the other's state, as it does in a join. */
static void join(struct node *joiner, struct node *other) {
    static uint8_t state[PACKET_ROOM];
    finish_call(other, "local_state", serf_agent_local_state(&other->agent));
    size_t len = packet_of(other, state);
    uint32_t code = flush_pending(joiner, serf_agent_merge(&joiner->agent, state, len, true));
    /* The events are handled before the code is checked: a merge that ran out of memory returns those that it accepted before,
     * and no later merge returns them again. */
    handle_events(joiner);
    demand_ok(joiner, "merge", code);
    printf("%s joined %s\n", joiner->name, other->name);
}

/* Fires an event, and returns the length of its packet. */
static size_t fire(struct node *node, const char *name, const char *payload, uint8_t packet[PACKET_ROOM]) {
    const uint8_t *name_bytes = (const uint8_t *)name, *payload_bytes = (const uint8_t *)payload;
    finish_call(node, "fire", serf_agent_fire(&node->agent, name_bytes, strlen(name), payload_bytes, strlen(payload), false));
    handle_events(node);
    return packet_of(node, packet);
}

/* Passes a packet to a node at this moment, and handles the events that it hands out. */
static void deliver(struct node *node, uint64_t now, const uint8_t *packet, size_t len) {
    struct serf_agent_result result;
    finish_call(node, "receive", serf_agent_receive(&node->agent, now, packet, len, false));
    finish_call(node, "result", serf_agent_result(&node->agent, &result));
    handle_events(node);
    if (result.kind == SERF_AGENT_RESULT_IGNORED) {
        printf("%s ignored it: %s\n", node->name, result.reason == SERF_AGENT_SEEN ? "seen" : "below the minimum");
    }
}

/* One node fires a query, and the other acks and answers it. */
static void ask(struct node *querier, struct node *answerer, uint64_t now, const char *name, const char *answer) {
    static uint8_t packet[PACKET_ROOM];
    struct serf_agent_params params = {.timeout = 1000, .want_ack = true};
    struct serf_agent_result result;
    size_t len;
    const uint8_t *name_bytes = (const uint8_t *)name;
    finish_call(querier, "query", serf_agent_query(&querier->agent, now, 7, name_bytes, strlen(name), NULL, 0, NULL, 0, &params));
    len = packet_of(querier, packet);
    deliver(answerer, now, packet, len);
    finish_call(answerer, "result", serf_agent_result(&answerer->agent, &result));
    finish_call(answerer, "ack", serf_agent_ack(&answerer->agent, &len, packet, PACKET_ROOM));
    deliver(querier, now, packet, len);
    finish_call(answerer, "respond", serf_agent_respond(&answerer->agent, now, result.handed, (const uint8_t *)answer, strlen(answer)));
    len = packet_of(answerer, packet);
    deliver(querier, now, packet, len);
}

/* Closes the queries that are due, and prints their answers. */
static void close_due(struct node *node, uint64_t now) {
    struct serf_agent_closed closed;
    struct serf_agent_response response;
    uint8_t from[128], payload[1024];
    size_t count, len;
    finish_call(node, "close_due", serf_agent_close_due(&node->agent, now, &count));
    for (size_t i = 0; serf_agent_closed(&node->agent, i, &closed) == SERF_AGENT_OK; i++) {
        for (size_t j = 0; serf_agent_closed_ack(&node->agent, i, j, &len, from, sizeof from) == SERF_AGENT_OK; j++) {
            printf("%.*s acked the query of %s\n", (int)len, from, node->name);
        }
        size_t j = 0;
        while (serf_agent_closed_response(&node->agent, i, j, &response, from, sizeof from, payload, sizeof payload) == SERF_AGENT_OK) {
            printf("%.*s answered %.*s\n", (int)response.from_len, from, (int)response.payload_len, payload);
            j++;
        }
    }
}

int main(int count, char **arguments) {
    static struct node alpha = {.name = "alpha"}, beta = {.name = "beta"};
    static uint8_t packet[PACKET_ROOM];
    struct serf_agent_clocks clocks;
    if (count != 2) {
        fprintf(stderr, "example FOLDER\n");
        return 2;
    }
    snprintf(alpha.path, sizeof alpha.path, "%s/alpha.snapshot", arguments[1]);
    snprintf(beta.path, sizeof beta.path, "%s/beta.snapshot", arguments[1]);
    open_node(&alpha);
    open_node(&beta);
    join(&alpha, &beta);
    join(&beta, &alpha);

    size_t len = fire(&alpha, "deploy", "v1.2", packet);
    deliver(&beta, 1, packet, len);
    deliver(&beta, 2, packet, len);

    crash(&beta);
    open_node(&beta);
    finish_call(&beta, "clocks", serf_agent_clocks(&beta.agent, &clocks));
    printf("beta crashed, and is back at %llu\n", (unsigned long long)clocks.event);
    deliver(&beta, 3, packet, len);

    len = fire(&beta, "rollback", "v1.1", packet);
    deliver(&alpha, 4, packet, len);

    ask(&alpha, &beta, 5, "load", "0.12");
    close_due(&alpha, 1006);
    crash(&alpha);
    crash(&beta);
    return 0;
}
