/* Bursts, of which some run out of memory: `burst_driver FOLDER`.
 *
 * An agent `one` fires five events and a query, each by a separate call. An agent `third` takes their packets in one burst,
 * in which it also fires an event and a query that only `other` may answer, and then in another burst the same, with a query for
 * itself: no filter of the first is left, even if that ran out of memory. The outcomes of each burst are followed by `ok`, or by
 * `out of memory N` if memory ran out after N outcomes had been read.
 *
 * An agent `other` then takes good and faulty packets, repeats and messages that aren't for it in one burst, in which it fires
 * too; one takes the ack and the response to its query in a burst, fires five events in another, and has a burst of no calls.
 *
 * Each outcome is a line: `event TIME NAME`, `query TIME NAME` (and then ` handed` and ` acked`), `ack FROM`,
 * `response FROM PAYLOAD`, `ignored REASON`, `foreign TYPE`, `state`, `fired TIME NAME`, `asked` (and then ` handed` and
 * ` acked`), `refused CODE`; and ` sent on` if the packet is to be sent on. */
#include "serf_agent.h"
#include "serf_agent_store.h"

#include <stdio.h>
#include <stdlib.h>
#include <string.h>

enum { ROOM = 65536, MAX_PACKETS = 16 };

struct node {
    struct serf_agent agent;
    struct serf_agent_store store;
    uint64_t handed;
};

struct packet {
    uint8_t bytes[2048];
    size_t len;
};

static struct packet events[5], load, own_ack, reply, whole;

static void demand(bool holds, const char *what) {
    if (!holds) {
        fprintf(stderr, "burst_driver: %s\n", what);
        exit(3);
    }
}

static void settle(struct node *node) {
    demand(serf_agent_store_settle(&node->store, &node->agent) == SERF_AGENT_STORE_OK, "the file");
}

static void open_node(struct node *node, const char *folder, const char *name) {
    static const struct serf_agent_settings settings = {512, 512, 512, 1024, 1024, 1024, 1024, false, false};
    static char path[4096];
    uint8_t *text;
    size_t len;
    snprintf(path, sizeof path, "%s/%s.snapshot", folder, name);
    demand(serf_agent_store_open(&node->store, path) == SERF_AGENT_STORE_OK, path);
    demand(serf_agent_store_read(&node->store, &text, &len) == SERF_AGENT_STORE_OK, path);
    demand(serf_agent_open(&node->agent, (const uint8_t *)name, strlen(name), &settings, text, len) == SERF_AGENT_OK, "open");
    settle(node);
    free(text);
}

static void close_node(struct node *node) {
    serf_agent_close(&node->agent);
    serf_agent_store_close(&node->store);
}

/* A packet that a call returned to be sent. */
static void keep(struct node *node, uint32_t code, struct packet *packet) {
    demand(code == SERF_AGENT_OK, "a call");
    settle(node);
    demand(serf_agent_packet(&node->agent, &packet->len, packet->bytes, sizeof packet->bytes) == SERF_AGENT_OK, "packet");
}

static void put_query(struct node *node, const struct serf_agent_result *result) {
    struct serf_agent_pending_query handed;
    uint8_t name[64];
    bool is_acked = serf_agent_ack(&node->agent, &own_ack.len, own_ack.bytes, sizeof own_ack.bytes) == SERF_AGENT_OK;
    if (result->handed != 0) {
        uint32_t code = serf_agent_pending_query(&node->agent, result->handed, &handed, name, sizeof name, NULL, 0, NULL, 0, NULL, 0);
        demand(code == SERF_AGENT_OK, "handed");
        printf(" %llu %.*s handed", (unsigned long long)handed.time, (int)handed.name_len, name);
        node->handed = result->handed;
    }
    printf("%s", is_acked ? " acked" : "");
}

static void put_answer(const struct packet *packet) {
    struct serf_agent_answer answer;
    uint8_t from[64], payload[64];
    demand(serf_agent_answer(packet->bytes, packet->len, &answer, from, sizeof from, payload, sizeof payload) == SERF_AGENT_OK, "answer");
    printf(" %.*s", (int)answer.from_len, from);
    if (!answer.is_ack) {
        printf(" %.*s", (int)answer.payload_len, payload);
    }
}

static void put_event(struct node *node) {
    struct serf_agent_event event;
    uint8_t name[64];
    demand(serf_agent_event(&node->agent, 0, &event, name, sizeof name, NULL, 0) == SERF_AGENT_OK, "event");
    printf(" %llu %.*s", (unsigned long long)event.time, (int)event.name_len, name);
}

/* The result of a call; for an ack or a response, its packet. */
static void put(struct node *node, uint32_t code, const struct packet *packet) {
    static const char *words[] = {"nothing", "event", "query", "ack", "response", "ignored", "foreign", "state", "fired", "asked"};
    struct serf_agent_result result;
    demand(serf_agent_result(&node->agent, &result) == SERF_AGENT_OK && result.kind <= SERF_AGENT_RESULT_QUERY_FIRED, "result");
    if (code != SERF_AGENT_OK) {
        demand(result.kind == SERF_AGENT_RESULT_NOTHING, "a call that was refused has no result");
        printf("refused %u\n", code);
        return;
    }
    printf("%s", words[result.kind]);
    if (result.kind == SERF_AGENT_RESULT_EVENT || result.kind == SERF_AGENT_RESULT_EVENT_FIRED) {
        put_event(node);
    } else if (result.kind == SERF_AGENT_RESULT_QUERY || result.kind == SERF_AGENT_RESULT_QUERY_FIRED) {
        put_query(node, &result);
    } else if (result.kind == SERF_AGENT_RESULT_ACK || result.kind == SERF_AGENT_RESULT_RESPONSE) {
        put_answer(packet);
    } else if (result.kind == SERF_AGENT_RESULT_IGNORED) {
        printf(" %u", result.reason);
    } else if (result.kind == SERF_AGENT_RESULT_FOREIGN) {
        printf(" %u", result.foreign);
    }
    printf("%s\n", result.rebroadcast ? " sent on" : "");
}

/* A burst: the packets of its calls, NULL for a firing. It ends if memory runs out. */
struct burst {
    struct node *node;
    const struct packet *packets[MAX_PACKETS];
    size_t count;
    bool is_over;
};

static void made(struct burst *burst, uint32_t code, const struct packet *packet) {
    burst->is_over = code == SERF_AGENT_OUT_OF_MEMORY;
    if (!burst->is_over) {
        burst->packets[burst->count++] = packet;
    }
}

static void receive(struct burst *burst, const struct packet *packet) {
    if (!burst->is_over) {
        made(burst, serf_agent_burst_receive(&burst->node->agent, 5, packet->bytes, packet->len, false), packet);
    }
}

static void fire(struct burst *burst, const char *name, size_t len) {
    if (!burst->is_over) {
        made(burst, serf_agent_burst_fire(&burst->node->agent, (const uint8_t *)name, len, NULL, 0, false), NULL);
    }
}

/* A query with a filter of a node's name, if there is one. */
static void ask(struct burst *burst, int64_t timeout, const char *filter) {
    struct serf_agent_params params = {.timeout = timeout, .want_ack = true};
    uint32_t code = SERF_AGENT_OK;
    if (burst->is_over) {
        return;
    }
    if (filter != NULL) {
        code = serf_agent_add_filter(&burst->node->agent, (const uint8_t *)filter, 8);
    }
    if (code == SERF_AGENT_OK) {
        code = serf_agent_burst_query(&burst->node->agent, 5, 9, (const uint8_t *)"load", 4, NULL, 0, NULL, 0, &params);
    }
    made(burst, code, NULL);
}

/* Writes the lines to the disk and prints the outcomes. */
static void finish(struct burst *burst) {
    uint32_t code, answered;
    size_t read = 0, left = 0, first = SIZE_MAX;
    settle(burst->node);
    demand(serf_agent_outcomes(&burst->node->agent, &left) == SERF_AGENT_OK && left == burst->count, "outcomes");
    while ((code = serf_agent_next(&burst->node->agent, &answered)) != SERF_AGENT_NOTHING) {
        if (code == SERF_AGENT_OUT_OF_MEMORY) {
            first = read;
            continue;
        }
        demand(code == SERF_AGENT_OK, "next");
        put(burst->node, answered, burst->packets[read++]);
    }
    demand(read == burst->count, "each call has its outcome");
    if (burst->is_over || first != SIZE_MAX) {
        printf("out of memory %zu\n", first < read ? first : read);
    } else {
        printf("ok\n");
    }
}

/* A filter lets `one`, `other` or `third` pass. */
#define FILTER(name) "\0\221\245" name

static void starve(struct node *third) {
    static const struct serf_agent_params none = {0};
    for (int i = 0; i < 2; i++) {
        struct burst burst = {.node = third};
        /* one of no time is never fired, and forgets the filters of a query that was given up */
        uint32_t code = serf_agent_query(&third->agent, 0, 0, NULL, 0, NULL, 0, NULL, 0, &none);
        demand(code == SERF_AGENT_NO_TIME, "a query of no time");
        for (int k = 0; k < 5; k++) {
            receive(&burst, &events[k]);
        }
        receive(&burst, &load);
        fire(&burst, "own", 3);
        ask(&burst, 9, i == 0 ? FILTER("other") : FILTER("third"));
        receive(&burst, &events[0]);
        finish(&burst);
    }
}

static void take_all(struct node *one, struct node *other) {
    static const struct packet empty, foreign = {"\0", 1}, cut = {"\003\201\245LTim", 7};
    static char large[600];
    struct burst burst = {.node = other};
    const struct packet *packets[] = {&events[0], &empty, &events[1], &events[0], &cut, &load, &foreign, &whole};
    for (size_t i = 0; i < sizeof packets / sizeof *packets; i++) {
        receive(&burst, packets[i]);
    }
    fire(&burst, "own", 3);
    fire(&burst, large, sizeof large);
    ask(&burst, 0, NULL);
    ask(&burst, 9, FILTER("other"));
    receive(&burst, &events[2]);
    finish(&burst);
    keep(other, serf_agent_respond(&other->agent, 5, other->handed - 1, (const uint8_t *)"yes", 3), &reply);
    burst = (struct burst){.node = one};
    finish(&burst);
    receive(&burst, &reply);
    receive(&burst, &reply);
    for (int i = 0; i < 5; i++) {
        fire(&burst, "again", 5);
    }
    finish(&burst);
}

int main(int count, char **words) {
    static struct node one, other, third;
    static const struct serf_agent_params params = {.timeout = 1000, .want_ack = true};
    demand(count == 2, "expected a folder as the argument");
    open_node(&one, words[1], "one");
    for (int i = 0; i < 5; i++) {
        uint8_t name[2] = {'e', (uint8_t)('0' + i)};
        keep(&one, serf_agent_fire(&one.agent, name, 2, NULL, 0, false), &events[i]);
    }
    keep(&one, serf_agent_query(&one.agent, 1, 8, (const uint8_t *)"load", 4, NULL, 0, NULL, 0, &params), &load);
    keep(&one, serf_agent_local_state(&one.agent), &whole);
    open_node(&third, words[1], "third");
    starve(&third);
    open_node(&other, words[1], "other");
    take_all(&one, &other);
    close_node(&one);
    close_node(&other);
    close_node(&third);
    return 0;
}
