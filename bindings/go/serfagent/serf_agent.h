/* One Serf agent in C: libserf_agent_c.a, of the Rattle crate serf_agent_c.

   The library opens no file and no socket. A call returns a code, and getters then read its results: bytes for the host's
   file, events and a query for the host's handlers, and packets to send.

   1. A call that writes (open, fire, query, receive, merge, save_member_clock, compact, burst_receive, burst_fire,
      burst_query) may leave bytes for the file: serf_agent_pending returns them. The host appends them to its file and
      flushes it (fdatasync). If they replace the file, the host writes them to a new file next to it, flushes that file, and
      renames it. Then it calls serf_agent_flushed.
   2. Until then, most calls return SERF_AGENT_PENDING and do nothing, so nothing is handed out before its line is durable.
      The exceptions are serf_agent_pending, serf_agent_flushed, serf_agent_result, serf_agent_close, serf_agent_outcomes,
      serf_agent_add_filter, the three serf_agent_burst_.., and the calls that need no handle.
   3. If the file fails, the host closes the handle, and opens a new agent from what the file contains.

   The library can't check the following rules, so the host must keep them:
   - A handle is all 0 at first, is never copied or written, and is used by one thread at a time.
   - A pointer with a length points to that many bytes, which nothing else writes during the call. If the length is 0, the
     pointer may be any address.
   - The text that the host passes to serf_agent_open is what the file contains, and no other agent uses the file.
   - Moments ("now") are nanoseconds of one clock that never goes back.

   Getters copy: they write as much as fits into the host's memory, and return the whole length. To learn the length, call
   them with room for 0 bytes. A call that doesn't return SERF_AGENT_OK leaves its output parameters unchanged. */
#ifndef SERF_AGENT_H
#define SERF_AGENT_H
#include <stdbool.h>
#include <stddef.h>
#include <stdint.h>
#ifdef __cplusplus
extern "C" {
#endif

/* The version of these calls. A host that was written for another version has to be reviewed. In version 2, calls and
   constants had other names, which CHANGELOG.md lists. In version 1, serf_agent_receive and serf_agent_burst_receive also
   had no tags_pass: a separate call set it. */
#define SERF_AGENT_VERSION 3

/* What a call returns. */
enum serf_agent_code {
    SERF_AGENT_OK = 0,
    SERF_AGENT_EMPTY = 1,         /* the handle has no agent */
    SERF_AGENT_IN_USE = 2,        /* open: the handle already has an agent */
    SERF_AGENT_PENDING = 3,       /* bytes are pending for the host's file */
    SERF_AGENT_NOTHING = 4,       /* a getter: there is no result of this kind; next: no outcome is waiting */
    SERF_AGENT_OUT_OF_MEMORY = 5, /* nothing was done, except that a merge returns the events that it accepted before */
    SERF_AGENT_BAD_CONFIG = 6,    /* open: a setting is out of its bounds (below), or the name is empty or longer than 128 bytes */
    SERF_AGENT_SINK_ERROR = 7,    /* the agent's sink failed; never with this library's own sink */
    SERF_AGENT_STOPPED = 8,       /* the agent's sink failed before; never with this library's own sink */
    SERF_AGENT_TOO_LARGE = 9,     /* fire, query, respond: the event, query or response is too large */
    /* fire, query: the clock is at 2^64 - 1; observe_member, join_packet, leave_packet, the calls .._line: the time is 2^64 - 1,
       which isn't valid */
    SERF_AGENT_EXHAUSTED = 10,
    /* receive, merge: not a message (see serf_agent_packet_error); intent: not a message, or faulty (see serf_agent_intent_error) */
    SERF_AGENT_NO_MESSAGE = 11,
    SERF_AGENT_RESPONDERS_FULL = 12, /* receive: the query has as many answers as it accepts */
    SERF_AGENT_NOT_PUSH_PULL = 13,   /* merge: a message of another type */
    /* local_state, join_packet, leave_packet: a text has more than 4,294,967,295 bytes, or a list has more items than that */
    SERF_AGENT_TOO_LONG = 14,
    SERF_AGENT_NO_TIME = 15,       /* query: the timeout is 0 or negative */
    SERF_AGENT_PAST_DEADLINE = 16, /* respond: the moment is after the query's deadline */
    SERF_AGENT_NOT_PENDING = 17    /* respond, pending_query, forget_query: no query with this number is waiting for an answer */
};

/* What the result of the last call is: serf_agent_result's kind. */
enum serf_agent_kind {
    SERF_AGENT_RESULT_NOTHING = 0,     /* there is none, or the last call was refused */
    SERF_AGENT_RESULT_EVENT = 1,       /* receive: a new event; send the packet on unchanged */
    SERF_AGENT_RESULT_QUERY = 2,       /* receive: a new query */
    SERF_AGENT_RESULT_ACK = 3,         /* receive: an ack was counted */
    SERF_AGENT_RESULT_RESPONSE = 4,    /* receive: a response was counted */
    SERF_AGENT_RESULT_IGNORED = 5,     /* receive: the packet was ignored, for the reason */
    SERF_AGENT_RESULT_FOREIGN = 6,     /* receive: a message of a type that the agent doesn't read */
    SERF_AGENT_RESULT_PUSH_PULL = 7,   /* receive: a push/pull, which is for serf_agent_merge */
    SERF_AGENT_RESULT_EVENT_FIRED = 8, /* fire: the packet to send, and the event as it is handed out here */
    SERF_AGENT_RESULT_QUERY_FIRED = 9, /* query: the packet to send, and perhaps the query and an ack */
    SERF_AGENT_RESULT_MERGED = 10,     /* merge: the new events, in order; after OUT_OF_MEMORY, those accepted before it */
    SERF_AGENT_RESULT_STATE = 11,      /* local_state: the packet to send */
    SERF_AGENT_RESULT_REPLY = 12,      /* respond: the packet to send to the address and port of the query */
    SERF_AGENT_RESULT_CLOSED = 13      /* close_due: the queries that it closed, with their answers */
};

/* Why a packet was ignored: serf_agent_result's reason. */
enum serf_agent_reason {
    SERF_AGENT_NO_REASON = 0,
    SERF_AGENT_OVERSIZE = 1,          /* the event's name and payload together have more than 9,216 bytes */
    SERF_AGENT_BELOW_MINIMUM = 2,     /* its time is below the agent's minimum */
    SERF_AGENT_TOO_OLD = 3,           /* its time is too far below the clock */
    SERF_AGENT_SEEN = 4,              /* the same event or query was accepted before */
    SERF_AGENT_TIME_FULL = 5,         /* as many as the settings allow were accepted with the same time */
    SERF_AGENT_NOT_OPEN = 6,          /* a response to a query that is not open here */
    SERF_AGENT_OTHER_ID = 7,          /* a response to another query with the same time */
    SERF_AGENT_CLOSED = 8,            /* a response after the deadline */
    SERF_AGENT_ACK_NOT_REQUESTED = 9, /* an ack, although the query requests none */
    SERF_AGENT_ACK_TWICE = 10,        /* a second ack from the same node */
    SERF_AGENT_RESPONSE_TWICE = 11    /* a second response from the same node */
};

/* Why a packet is not a message: serf_agent_packet_error's kind. */
enum serf_agent_error {
    SERF_AGENT_ERROR_EMPTY = 1,         /* the packet is empty */
    SERF_AGENT_ERROR_UNKNOWN_TYPE = 2,  /* the packet's first byte is not the type of any message */
    SERF_AGENT_ERROR_TRUNCATED = 3,     /* the packet ends inside the value that begins at the offset */
    SERF_AGENT_ERROR_UNSUPPORTED = 4,   /* the byte at the offset begins an unsupported value: c1, a float or an ext */
    SERF_AGENT_ERROR_TOO_DEEP = 5,      /* the array or map at the offset is inside eight others */
    SERF_AGENT_ERROR_TRAILING = 6,      /* the value ends before the offset, and more bytes follow */
    SERF_AGENT_ERROR_NOT_A_MAP = 7,     /* the value is not a map */
    SERF_AGENT_ERROR_BAD_KEY = 8,       /* the key at the offset doesn't have MessagePack's type raw */
    SERF_AGENT_ERROR_TWICE = 9,         /* the known key at the offset appears in its map for the second time */
    SERF_AGENT_ERROR_WRONG_KIND = 10,   /* the value at the offset doesn't have its field's type */
    SERF_AGENT_ERROR_OUT_OF_RANGE = 11, /* the integer at the offset is not in its field's range */
    SERF_AGENT_ERROR_MAX_TIME = 12      /* the time at the offset is 2^64 - 1, which isn't valid */
};

/* Serf's own default values. */
enum serf_agent_default {
    SERF_AGENT_DEFAULT_SNAPSHOT_LIMIT = 131072 /* should_compact: the size in bytes above which Serf compacts its snapshot */
};

/* A handle: all 0 at first. */
struct serf_agent {
    bool open;
    struct {
        void *at;
    } place;
};

/* An agent's settings, without its name. */
struct serf_agent_settings {
    uint64_t event_buffer;   /* slots for events: 1 to 65,536; Serf has 512 */
    uint64_t query_buffer;   /* slots for queries: 1 to 65,536; Serf has 512 */
    uint64_t event_limit;    /* the maximum size of a fired event in bytes: at most 9,216; Serf has 512 */
    uint64_t query_limit;    /* the maximum size of a fired query's packet in bytes: at most 9,216; 0 means 1,024, as in Serf */
    uint64_t response_limit; /* the maximum size of a response's packet in bytes: at most 9,216; 0 means 1,024, as in Serf */
    uint64_t responders;     /* how many names are counted among a query's acks, and among its responses: 1 to 65,536 */
    uint64_t per_time;       /* how many events, or queries, are accepted with the same time: 1 to 65,536 */
    bool ignore_old;         /* whether a join raises the minimum time of events to the other agent's clock */
    bool keep_events;        /* whether the file keeps events and queries, so that a restart restores those in the buffers */
};

/* The result of the last call. */
struct serf_agent_result {
    uint32_t kind;    /* enum serf_agent_kind */
    uint32_t reason;  /* enum serf_agent_reason; 0 if nothing was ignored */
    uint64_t handed;  /* the number of the query that is handed out, for pending_query and respond; 0 if there is none */
    size_t events;    /* how many events are handed out */
    uint8_t foreign;  /* the type of a foreign message, otherwise 0 */
    bool rebroadcast; /* whether the host has to send the received packet on unchanged */
};

/* The bytes that are pending for the host's file. */
struct serf_agent_bytes {
    size_t len;
    bool replaces; /* true: they replace the file's text; false: they are appended to it */
};

/* An event that is handed out. */
struct serf_agent_event {
    uint64_t time;
    size_t name_len;
    size_t payload_len;
    bool coalesce;
};

/* How a query is fired. */
struct serf_agent_params {
    int64_t timeout; /* how long answers are accepted, in nanoseconds */
    uint16_t port;   /* the port to which answers are sent */
    uint8_t relay_factor;
    bool want_ack;
    bool no_broadcast; /* whether nodes must not send the query on */
    bool tags_pass;    /* whether this node's tags pass every tag filter, so that the query may be handed out here */
};

/* A query that was handed out and not yet answered. */
struct serf_agent_pending_query {
    uint64_t time;
    uint64_t deadline; /* the last moment at which it can be answered */
    size_t name_len;
    size_t payload_len;
    size_t source_len; /* the name of the node that fired the query */
    size_t addr_len;   /* the address to which a response is sent */
    uint32_t id;
    uint16_t port;
    uint8_t relay_factor;
};

/* What an ack or a response contains. */
struct serf_agent_answer {
    uint64_t time;   /* the query's time */
    size_t from_len; /* the name of the node that sent it */
    size_t payload_len;
    uint32_t id; /* the query's ID */
    bool is_ack;
};

/* Why a packet is not a message: its first error. */
struct serf_agent_packet_error {
    size_t offset; /* its position in bytes from the packet's first byte, which is the type; 0 if it concerns the whole packet */
    uint32_t kind; /* enum serf_agent_error */
    uint8_t byte;  /* UNKNOWN_TYPE and UNSUPPORTED: the byte; otherwise 0 */
};

/* What a join or a leave intent contains, without the node's name. */
struct serf_agent_intent {
    uint64_t time; /* by the member clock of the node that sent it */
    size_t node_len;
    bool leave; /* true: the node leaves; false: it joins */
    bool prune; /* of a leave intent: whether the members have to forget the node at once */
};

/* How many members a push/pull names. */
struct serf_agent_members {
    uint64_t member_clock; /* the sender's */
    size_t members;
    size_t names_len; /* the total length of their names */
};

/* A member that a push/pull names. */
struct serf_agent_member {
    uint64_t status_time; /* the time of its status, by the member clock; 0 if it is named among those that left */
    size_t name_len;
    bool left; /* true: it is named among those that left; false: with its status time */
};

/* How many filters a query has. */
struct serf_agent_filters {
    size_t filters;
    size_t filters_len; /* their total length */
};

/* How many events a text leaves open. */
struct serf_agent_open_events {
    size_t events;
    size_t texts_len; /* the total length of their names and payloads */
    bool tracked;     /* whether the text says what became of handlers; if it doesn't, no event is open */
};

/* An event that a text leaves open: it was handed out, and it isn't done. */
struct serf_agent_open_event {
    uint64_t time;
    size_t name_len;
    size_t payload_len;
    bool begun; /* true: its handler has begun; false: it still waits for its handler */
};

/* A query of this agent that close_due closed. */
struct serf_agent_closed {
    uint64_t time;
    uint64_t deadline; /* the last moment at which an answer was counted */
    size_t acks;       /* how many nodes acked it */
    size_t responses;  /* how many nodes responded */
    uint32_t id;
};

/* A response to a query that close_due closed. */
struct serf_agent_response {
    size_t from_len; /* the name of the node that responded */
    size_t payload_len;
};

/* The agent's clocks. */
struct serf_agent_clocks {
    uint64_t member;
    uint64_t event;
    uint64_t query;
    uint64_t event_minimum; /* the minimum time of an event that is accepted */
    uint64_t query_minimum;
};

/* Life */

/* Opens an agent on the text of the host's file, in an empty handle. If the text's last line is torn, the first pending bytes
   end it. If the settings keep events, an event or a query that the file keeps counts as handed out. One that it doesn't keep
   is handed out when it arrives, as long as its time is still within the buffer. */
uint32_t serf_agent_open(struct serf_agent *handle, const uint8_t *name, size_t name_len,
                         const struct serf_agent_settings *settings, const uint8_t *text, size_t text_len);
/* Closes the agent. The handle is empty afterwards. */
uint32_t serf_agent_close(struct serf_agent *handle);

/* The host's file */

/* Returns the bytes that are pending for the file: their length, and as many of them as fit. */
uint32_t serf_agent_pending(struct serf_agent *handle, struct serf_agent_bytes *bytes, uint8_t *to, size_t room);
/* Confirms that the host wrote them to its file, and flushed it. */
uint32_t serf_agent_flushed(struct serf_agent *handle);

/* Calls */

/* Fires an event: it is handed out here (serf_agent_event, number 0), and its packet is to be broadcast. */
uint32_t serf_agent_fire(struct serf_agent *handle, const uint8_t *name, size_t name_len, const uint8_t *payload,
                         size_t payload_len, bool coalesce);
/* Handles a packet from the network; serf_agent_result returns the result. The agent doesn't know its node's tags. If a query has
   tag filters (those of serf_agent_query_filters whose first byte is 1), the host passes true for tags_pass only if it could
   read every one of them and its tags pass all of them. Then the query is handed out if its other filters let this node pass. */
uint32_t serf_agent_receive(struct serf_agent *handle, uint64_t now, const uint8_t *packet, size_t packet_len, bool tags_pass);
/* Merges another agent's whole state. If memory runs out after the merge began (SERF_AGENT_OUT_OF_MEMORY), the getters return
   the events that it accepted before. The host writes their lines and hands them out as usual. The same merge, made again,
   returns only the other events. If the settings keep events and ignore old ones, a join first writes a line with its minimum
   time, so that this minimum also holds in later lives. */
uint32_t serf_agent_merge(struct serf_agent *handle, const uint8_t *packet, size_t packet_len, bool is_join);
/* Makes the packet to send with the agent's whole state. It contains the members that serf_agent_add_status and
   serf_agent_add_left named since the last attempt. Each attempt forgets them, unless memory runs out. */
uint32_t serf_agent_local_state(struct serf_agent *handle);
/* Names a member and its status time for the next state. */
uint32_t serf_agent_add_status(struct serf_agent *handle, const uint8_t *name, size_t name_len, uint64_t status_time);
/* Names a member that left, for the next state. */
uint32_t serf_agent_add_left(struct serf_agent *handle, const uint8_t *name, size_t name_len);
/* Fires a query with the filters that serf_agent_add_filter added since the last attempt. Each attempt forgets them, unless
   memory runs out. */
uint32_t serf_agent_query(struct serf_agent *handle, uint64_t now, uint32_t id, const uint8_t *name, size_t name_len,
                          const uint8_t *payload, size_t payload_len, const uint8_t *addr, size_t addr_len,
                          const struct serf_agent_params *params);
/* Adds a filter to the next query: the bytes of a filter as Serf writes them. It may also be called while bytes are pending
   for the file, and within a burst. */
uint32_t serf_agent_add_filter(struct serf_agent *handle, const uint8_t *filter, size_t filter_len);
/* Answers the query with this number. After a success, it can't be answered again. */
uint32_t serf_agent_respond(struct serf_agent *handle, uint64_t now, uint64_t number, const uint8_t *payload,
                            size_t payload_len);
/* Forgets the query with this number, which the host will not answer. A query that was handed out uses memory until it is
   answered or forgotten. */
uint32_t serf_agent_forget_query(struct serf_agent *handle, uint64_t number);
/* Closes the open queries whose deadline is before a moment, and returns how many it closed. Until the next call,
   serf_agent_closed and the getters after it return them. Queries that were handed out are forgotten if their deadline is
   before the moment, since nobody accepts their answers any more. If memory runs out, no query is closed or forgotten. */
uint32_t serf_agent_close_due(struct serf_agent *handle, uint64_t now, size_t *closed);
/* Observes the time of a member's intent or status: from then on, the member clock is later than this time. If the time is
   2^64 - 1, which isn't valid, the code is SERF_AGENT_EXHAUSTED. The previous call's result stays. For a join or a leave intent
   about its own node, a host uses the member clock (clocks) as the time, observes it, and saves the clock. After the clock's
   line is written, no later life uses this time again. */
uint32_t serf_agent_observe_member(struct serf_agent *handle, uint64_t time);
/* Writes a line with the member clock, so that a restart resumes from it. */
uint32_t serf_agent_save_member_clock(struct serf_agent *handle);
/* Makes the text that replaces the file's: one line for each clock, and, if the settings keep events, the lines of what the
   buffers hold. */
uint32_t serf_agent_compact(struct serf_agent *handle);

/* Bursts: many packets, and one flush

   The calls of a burst are made one after another, without a flush between them. Each of them does the same as the call whose
   name lacks burst_, and returns the same code, but its result waits after the results of the calls before it. The host then
   writes the lines of all of them to its file at once (serf_agent_pending, one flush, serf_agent_flushed), and reads the
   outcomes with serf_agent_next, in the order of the calls. A refused call has an outcome too, unless memory ran out: then
   nothing was done, and the outcomes before it keep waiting. So the n-th outcome is that of the n-th call that did not return
   SERF_AGENT_OUT_OF_MEMORY. A host with a list of its packets moves on by one packet with each serf_agent_next.

   The first call begins the burst, and may follow any other call. That call's result stays until serf_agent_next or another
   call. Other calls may be made while outcomes wait, as soon as the host's file has the lines. */

/* Handles a packet as the next call of the burst, as serf_agent_receive does. */
uint32_t serf_agent_burst_receive(struct serf_agent *handle, uint64_t now, const uint8_t *packet, size_t packet_len,
                                  bool tags_pass);
/* Fires an event as the next call of the burst, as serf_agent_fire does. */
uint32_t serf_agent_burst_fire(struct serf_agent *handle, const uint8_t *name, size_t name_len, const uint8_t *payload,
                               size_t payload_len, bool coalesce);
/* Fires a query as the next call of the burst, with the filters that serf_agent_add_filter added since the last attempt. Each
   attempt forgets them, unless memory runs out. */
uint32_t serf_agent_burst_query(struct serf_agent *handle, uint64_t now, uint32_t id, const uint8_t *name, size_t name_len,
                                const uint8_t *payload, size_t payload_len, const uint8_t *addr, size_t addr_len,
                                const struct serf_agent_params *params);
/* Moves on to the next outcome, and returns the code of its call. The getters then read that call's result, as after a call
   outside a burst. If none is left, the code is SERF_AGENT_NOTHING, and the previous result can no longer be read. If memory
   runs out, no outcome is lost: try again. */
uint32_t serf_agent_next(struct serf_agent *handle, uint32_t *answered);
/* Returns how many outcomes wait for serf_agent_next. */
uint32_t serf_agent_outcomes(struct serf_agent *handle, size_t *total);

/* Getters */

/* The result of the last call. */
uint32_t serf_agent_result(struct serf_agent *handle, struct serf_agent_result *result);
/* An event that the last call handed out, counted from 0, and as much of its texts as fits. */
uint32_t serf_agent_event(struct serf_agent *handle, size_t index, struct serf_agent_event *event, uint8_t *name,
                          size_t name_room, uint8_t *payload, size_t payload_room);
/* What an ack's or a response's packet contains, and as much of its texts as fits. If the packet is neither, the code is
   SERF_AGENT_NOTHING. If the result of serf_agent_receive was ACK or RESPONSE, this is what it counted. It needs no handle. */
uint32_t serf_agent_answer(const uint8_t *packet, size_t packet_len, struct serf_agent_answer *answer, uint8_t *from,
                           size_t from_room, uint8_t *payload, size_t payload_room);
/* Why a packet is not a message. It needs no handle and allocates no memory. If the packet is a message, even of a type that the
   agent doesn't read, the code is SERF_AGENT_NOTHING, and nothing is written. */
uint32_t serf_agent_packet_error(const uint8_t *packet, size_t packet_len, struct serf_agent_packet_error *error);
/* What an intent's packet contains, and as much of the node's name as fits. If the packet is another message, whose bytes are
   not checked, the code is SERF_AGENT_NOTHING. If it is not a message, or a faulty intent, the code is SERF_AGENT_NO_MESSAGE.
   It needs no handle and allocates no memory. */
uint32_t serf_agent_intent(const uint8_t *packet, size_t packet_len, struct serf_agent_intent *intent, uint8_t *node,
                           size_t node_room);
/* Why serf_agent_intent returns SERF_AGENT_NO_MESSAGE. If it doesn't, the code is SERF_AGENT_NOTHING, and nothing is written. */
uint32_t serf_agent_intent_error(const uint8_t *packet, size_t packet_len, struct serf_agent_packet_error *error);
/* An intent's packet: its length, and as much of it as fits. The code is SERF_AGENT_EXHAUSTED if the time is 2^64 - 1, which
   isn't valid, and SERF_AGENT_TOO_LONG if the name is longer than 4,294,967,295 bytes. Memory may run out
   (SERF_AGENT_OUT_OF_MEMORY). It needs no handle. */
uint32_t serf_agent_join_packet(uint64_t time, const uint8_t *node, size_t node_len, size_t *len, uint8_t *to, size_t room);
uint32_t serf_agent_leave_packet(uint64_t time, const uint8_t *node, size_t node_len, bool prune, size_t *len, uint8_t *to,
                                 size_t room);
/* What a push/pull's packet says about members: how many it names; as many of them as fit, first those with a status time and
   then those that left, each in the packet's order; and as much of their names as fits, one after another in the same order.
   If the packet is not a push/pull, the code is SERF_AGENT_NOTHING. Memory may run out (SERF_AGENT_OUT_OF_MEMORY). It needs
   no handle. */
uint32_t serf_agent_state_members(const uint8_t *packet, size_t packet_len, struct serf_agent_members *all,
                                  struct serf_agent_member *members, size_t members_room, uint8_t *names, size_t names_room);
/* The filters of a query's packet, in its order: how many there are; the lengths of as many of them as fit; and as much of
   their bytes as fits, one after another. If the packet is not a query, the code is SERF_AGENT_NOTHING. Memory may run out
   (SERF_AGENT_OUT_OF_MEMORY). It needs no handle. */
uint32_t serf_agent_query_filters(const uint8_t *packet, size_t packet_len, struct serf_agent_filters *all, size_t *lens,
                                  size_t lens_room, uint8_t *filters, size_t filters_room);
/* The time of the query that the last call (query) fired. */
uint32_t serf_agent_query_time(struct serf_agent *handle, uint64_t *time);
/* The packet to send that the last call made (fire, query, local_state, respond): its length, and as much of it as fits. */
uint32_t serf_agent_packet(struct serf_agent *handle, size_t *len, uint8_t *to, size_t room);
/* This node's ack of a query that is handed out here (receive, query), to send to the query's address and port. */
uint32_t serf_agent_ack(struct serf_agent *handle, size_t *len, uint8_t *to, size_t room);
/* A query that was handed out and that is neither answered nor forgotten, and as much of its texts as fits. */
uint32_t serf_agent_pending_query(struct serf_agent *handle, uint64_t number, struct serf_agent_pending_query *handed,
                                  uint8_t *name, size_t name_room, uint8_t *payload, size_t payload_room,
                                  uint8_t *source, size_t source_room, uint8_t *addr, size_t addr_room);
/* The agent's clocks, and the minimum times of what it accepts. */
uint32_t serf_agent_clocks(struct serf_agent *handle, struct serf_agent_clocks *clocks);
/* The earliest deadline of the open queries. If none is open, the code is SERF_AGENT_NOTHING. */
uint32_t serf_agent_next_deadline(struct serf_agent *handle, uint64_t *deadline);
/* How many of this agent's own queries still accept answers. */
uint32_t serf_agent_open_queries(struct serf_agent *handle, size_t *open);
/* A query that the last call closed (close_due), counted from 0 in the order in which they were fired. */
uint32_t serf_agent_closed(struct serf_agent *handle, size_t index, struct serf_agent_closed *closed);
/* The name of a node that acked a closed query, counted from 0 in order of arrival: its length, and as much of it as fits. */
uint32_t serf_agent_closed_ack(struct serf_agent *handle, size_t index, size_t number, size_t *len, uint8_t *to, size_t room);
/* A response to a closed query, counted from 0 in order of arrival, and as much of its texts as fits. */
uint32_t serf_agent_closed_response(struct serf_agent *handle, size_t index, size_t number,
                                    struct serf_agent_response *response, uint8_t *from, size_t from_room,
                                    uint8_t *payload, size_t payload_room);
/* Whether the file has more bytes than the limit, and serf_agent_compact would remove at least half of them. It is never true
   if the limit is 2^64 - 1. */
uint32_t serf_agent_should_compact(struct serf_agent *handle, uint64_t limit, bool *should);

/* What was handed out and isn't done

   With keep_events, the file says which events were handed out. Lines of the host's own, in the same file, say what became of
   their handlers. So the next start runs the handlers that never began, and reports those that began and didn't end. Before its
   first line of serf_agent_done_up_to_line, a file says nothing of handlers. An open event is one that was handed out and that
   isn't done. The agent skips these lines, and docs/HOST.md says when a host writes them. These calls need no handle. Memory may
   run out (SERF_AGENT_OUT_OF_MEMORY). */

/* The events that a text, such as the whole text of the host's file, leaves open, in the order in which they were handed out: how
   many there are; as many of them as fit; and as much of their names and payloads as fits, one after another: the name and then
   the payload of the first event, then those of the next. */
uint32_t serf_agent_open_events(const uint8_t *text, size_t text_len, struct serf_agent_open_events *all,
                                struct serf_agent_open_event *events, size_t events_room, uint8_t *texts, size_t texts_room);
/* The line that opens an event in a text that replaces the file's: its length, and as much of it as fits. The code of this and
   the next three calls is SERF_AGENT_EXHAUSTED if the time is 2^64 - 1, which isn't valid. */
uint32_t serf_agent_open_line(uint64_t time, const uint8_t *name, size_t name_len, const uint8_t *payload, size_t payload_len,
                              size_t *len, uint8_t *to, size_t room);
/* The line that says that an event's handler has begun. The host flushes it before the handler starts. */
uint32_t serf_agent_begun_line(uint64_t time, const uint8_t *name, size_t name_len, const uint8_t *payload, size_t payload_len,
                               size_t *len, uint8_t *to, size_t room);
/* The line that says that an event is done. It can be flushed together with the next bytes. */
uint32_t serf_agent_done_line(uint64_t time, const uint8_t *name, size_t name_len, const uint8_t *payload, size_t payload_len,
                              size_t *len, uint8_t *to, size_t room);
/* The line that says that all events of the lines above it are done, up to this time. After the first line of
   this form in a file, nothing is open. */
uint32_t serf_agent_done_up_to_line(uint64_t time, size_t *len, uint8_t *to, size_t room);

#ifdef __cplusplus
}
#endif
#endif
