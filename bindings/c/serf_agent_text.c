/* The sentences of codes, reasons and errors (see serf_agent_text.h). */
#include "serf_agent_text.h"

#include "serf_agent.h"

/* (tests/repository/version.py compares this text with the file VERSION) */
static const char version[] = "0.2.0";

const char *serf_agent_version(void) {
    return version;
}

const char *serf_agent_code_text(uint32_t code) {
    switch (code) {
    case SERF_AGENT_OK:
        return "no error";
    case SERF_AGENT_EMPTY:
        return "the handle has no agent";
    case SERF_AGENT_IN_USE:
        return "the handle already has an agent";
    case SERF_AGENT_PENDING:
        return "bytes are pending for the host's file";
    case SERF_AGENT_NOTHING:
        return "there is no result of this kind";
    case SERF_AGENT_OUT_OF_MEMORY:
        return "out of memory";
    case SERF_AGENT_BAD_CONFIG:
        return "a setting is out of its bounds, or the name is empty or too long";
    case SERF_AGENT_SINK_ERROR:
        return "the agent's sink failed";
    case SERF_AGENT_STOPPED:
        return "the agent's sink failed before";
    case SERF_AGENT_TOO_LARGE:
        return "the event, query or response is too large";
    case SERF_AGENT_EXHAUSTED:
        return "the clock is at 2^64 - 1, or the time is 2^64 - 1, which isn't valid";
    case SERF_AGENT_NO_MESSAGE:
        return "the packet is not a message";
    case SERF_AGENT_RESPONDERS_FULL:
        return "the query has as many answers as it accepts";
    case SERF_AGENT_NOT_PUSH_PULL:
        return "the message is not a push/pull";
    case SERF_AGENT_TOO_LONG:
        return "a text or a list is longer than 4,294,967,295";
    case SERF_AGENT_NO_TIME:
        return "the timeout is 0 or negative";
    case SERF_AGENT_PAST_DEADLINE:
        return "the moment is after the query's deadline";
    case SERF_AGENT_NOT_PENDING:
        return "no query with this number is waiting for an answer";
    default:
        return "a code that this version doesn't know";
    }
}

const char *serf_agent_reason_text(uint32_t reason) {
    switch (reason) {
    case SERF_AGENT_NO_REASON:
        return "the packet was not ignored";
    case SERF_AGENT_OVERSIZE:
        return "the event's name and payload together have more than 9,216 bytes";
    case SERF_AGENT_BELOW_MINIMUM:
        return "its time is below the agent's minimum";
    case SERF_AGENT_TOO_OLD:
        return "its time is too far below the clock";
    case SERF_AGENT_SEEN:
        return "the same event or query was accepted before";
    case SERF_AGENT_TIME_FULL:
        return "as many as the settings allow were accepted with the same time";
    case SERF_AGENT_NOT_OPEN:
        return "it answers a query that is not open here";
    case SERF_AGENT_OTHER_ID:
        return "it answers another query with the same time";
    case SERF_AGENT_CLOSED:
        return "it arrived after the query's deadline";
    case SERF_AGENT_ACK_NOT_REQUESTED:
        return "the query requests no acks";
    case SERF_AGENT_ACK_TWICE:
        return "it is the second ack from the same node";
    case SERF_AGENT_RESPONSE_TWICE:
        return "it is the second response from the same node";
    default:
        return "a reason that this version doesn't know";
    }
}

const char *serf_agent_error_text(uint32_t error) {
    switch (error) {
    case SERF_AGENT_ERROR_EMPTY:
        return "the packet is empty";
    case SERF_AGENT_ERROR_UNKNOWN_TYPE:
        return "the packet's first byte is not the type of any message";
    case SERF_AGENT_ERROR_TRUNCATED:
        return "the packet ends inside a value";
    case SERF_AGENT_ERROR_UNSUPPORTED:
        return "a value is of an unsupported type: c1, a float or an ext";
    case SERF_AGENT_ERROR_TOO_DEEP:
        return "an array or a map is inside eight others";
    case SERF_AGENT_ERROR_TRAILING:
        return "more bytes follow the value";
    case SERF_AGENT_ERROR_NOT_A_MAP:
        return "the value is not a map";
    case SERF_AGENT_ERROR_BAD_KEY:
        return "a key doesn't have MessagePack's type raw";
    case SERF_AGENT_ERROR_TWICE:
        return "a known key appears in its map for the second time";
    case SERF_AGENT_ERROR_WRONG_KIND:
        return "a value doesn't have its field's type";
    case SERF_AGENT_ERROR_OUT_OF_RANGE:
        return "an integer is not in its field's range";
    case SERF_AGENT_ERROR_MAX_TIME:
        return "a time is 2^64 - 1, which isn't valid";
    default:
        return "an error that this version doesn't know";
    }
}
