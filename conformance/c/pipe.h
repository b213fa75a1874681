/* The words of the pipe: bytes as hex digits, and the names of codes, reasons and kinds. */
#pragma once
#include "serf_agent.h"

#include <stdint.h>
#include <stdio.h>
#include <stdlib.h>
#include <string.h>

/* The type of a number for printf. */
typedef unsigned long long number;

struct bytes {
    uint8_t *at;
    size_t len;
};

static const char *const refusals[SERF_AGENT_NOT_PENDING + 1] = {
    [SERF_AGENT_STOPPED] = "Stopped",           [SERF_AGENT_TOO_LARGE] = "TooLarge",
    [SERF_AGENT_EXHAUSTED] = "Exhausted",       [SERF_AGENT_RESPONDERS_FULL] = "RespondersFull",
    [SERF_AGENT_NOT_PUSH_PULL] = "NotPushPull", [SERF_AGENT_TOO_LONG] = "TooLong",
    [SERF_AGENT_NO_TIME] = "ZeroTimeout",       [SERF_AGENT_PAST_DEADLINE] = "PastDeadline",
    [SERF_AGENT_NOT_PENDING] = "NoQuery",
};
static const char *const reasons[] = {"",          "Oversize", "BelowMinimum", "TooOld",      "Seen",     "TimeFull",
                                      "NotOpen",   "OtherId",  "Closed",       "AckNotAsked", "AckTwice", "ResponseTwice"};
static const char *const kinds[] = {"", "new", "query", "ack", "response", "ignored ", "foreign ", "push-pull"};

static const char *const packet_errors[] = {"",        "Empty",  "UnknownType", "Truncated", "Unsupported", "TooDeep",   "Trailing",
                                            "NotAMap", "BadKey", "Twice",       "WrongKind", "OutOfRange",  "GreatestTime"};

static int digit(int of) {
    return of <= '9' ? of - '0' : (of | 32) - 'a' + 10;
}

/* Converts a word's hex digits to bytes, which replace them in memory. */
static struct bytes bytes_of(char *word) {
    size_t len = strcmp(word, "-") == 0 ? 0 : strlen(word) / 2;
    for (size_t i = 0; i < len; i++) {
        word[i] = (char)(digit(word[2 * i]) * 16 + digit(word[2 * i + 1]));
    }
    return (struct bytes){(uint8_t *)word, len};
}

/* Does what realloc does, and ends the program if memory runs out. */
static void *grown(void *at, size_t size) {
    void *moved = realloc(at, size);
    if (moved == NULL) {
        perror("realloc");
        exit(1);
    }
    return moved;
}

static void append(struct bytes *to, struct bytes more) {
    to->at = grown(to->at, to->len + more.len + 1);
    memcpy(to->at + to->len, more.at, more.len);
    to->len += more.len;
}

/* Prints bytes after what was printed before. */
static void put(const uint8_t *bytes, size_t len, const char *end) {
    putchar(' ');
    for (size_t i = 0; i < len; i++) {
        printf("%02x", bytes[i]);
    }
    printf("%s%s", len == 0 ? "-" : "", end);
}

/* Prints a line with a word and bytes. */
static void write_line(const char *word, struct bytes bytes) {
    fputs(word, stdout);
    put(bytes.at, bytes.len, "\n");
}

/* Prints the line for a packet that is no message: what is wrong with it, with the byte and the place. */
static void write_packet_error(struct bytes packet) {
    struct serf_agent_packet_error error = {0};
    serf_agent_packet_error(packet.at, packet.len, &error);
    printf("refused Wire %s", packet_errors[error.kind]);
    if (error.kind == SERF_AGENT_ERROR_UNKNOWN_TYPE || error.kind == SERF_AGENT_ERROR_UNSUPPORTED) {
        printf(" %u", error.byte);
    }
    /* The place is never that of the type, so 0 means that there is none. */
    if (error.offset != 0) {
        printf(" %zu", error.offset);
    }
    putchar('\n');
}

/* Prints the line for an answer that was counted, from its packet. */
static void write_counted(struct bytes packet) {
    static uint8_t from[1 << 20], payload[1 << 20];
    struct serf_agent_answer said;
    serf_agent_answer(packet.at, packet.len, &said, from, sizeof from, payload, sizeof payload);
    printf("counted %s %llu %u", said.is_ack ? "ack" : "response", (number)said.time, said.id);
    put(from, said.from_len, said.is_ack ? "\n" : "");
    if (!said.is_ack) {
        put(payload, said.payload_len, "\n");
    }
}
