/* What a host in C notes of the handlers of its events, and the lines about them (docs/HOST.md, "What was handed out and isn't done"). */
#ifndef TRACKING_H
#define TRACKING_H

#include "serf_agent.h"
#include "serf_agent_store.h"

/* Prints a line: its first word, an event's time, and its name in hex. */
typedef void (*print_event)(const char *word, uint64_t time, const uint8_t *name, size_t len);

/* Begins with the open events of a text, each of which it prints. Returns whether the text says what became of handlers. */
bool tracking_open(const uint8_t *text, size_t len, print_event print);

/* Appends the line with which a file begins to say what became of handlers. */
enum serf_agent_store_error tracking_start(struct serf_agent_store *store, struct serf_agent *agent);

/* Adds an event that is handed out to the open ones. */
void tracking_hand_out(uint64_t time, const uint8_t *name, size_t len);

/* Begins the handler of the first event that waits, after the flush of its line; ends the handler that began first. Nothing, if there
 * is none. */
enum serf_agent_store_error tracking_begin(struct serf_agent_store *store, print_event print);
void tracking_end(print_event print);

/* Does what serf_agent_compact does. The agent's clocks can't be read while its bytes are pending, so it reads them before. */
uint32_t tracking_compact(struct serf_agent *agent);

/* Does what serf_agent_store_settle does, with the lines about handlers before the agent's bytes, or after those that replace the
 * file's. */
enum serf_agent_store_error tracking_settle(struct serf_agent_store *store, struct serf_agent *agent);

#endif
