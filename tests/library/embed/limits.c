/* The longest packets of queries and of responses that an agent's settings allow.
 *
 * Prints a line `FAILED ..` for each answer that isn't as include/serf_agent.h says, and at the end `N passed, M failed`. */
#include "counts.h"
#include "serf_agent.h"

static uint8_t room[65536];

/* What the library has for the file is written: here to nowhere. */
static void written(struct serf_agent *agent) {
    struct serf_agent_bytes about;
    if (serf_agent_pending(agent, &about, room, sizeof room) == SERF_AGENT_OK) {
        serf_agent_flushed(agent);
    }
}

/* The length of the packet that the last call returned. */
static size_t packet_length(struct serf_agent *agent) {
    size_t len = 0;
    written(agent);
    is("packet", serf_agent_packet(agent, &len, NULL, 0), SERF_AGENT_OK);
    return len;
}

/* The longest packet of a query, and of a response, has just as many bytes as the limit says. */
static void packets_of_limits(uint64_t query, uint64_t response, size_t longest_query, size_t longest_response) {
    static const uint8_t payload[9300];
    const struct serf_agent_settings limited = {
        .event_buffer = 8, .query_buffer = 8, .event_limit = 512, .query_limit = query, .response_limit = response,
        .responders = 8, .per_time = 8,
    };
    const struct serf_agent_params params = {.timeout = 1000};
    struct serf_agent agent = {0};
    struct serf_agent_result result;
    size_t len = longest_query + 1;
    is("open", serf_agent_open(&agent, (const uint8_t *)"a", 1, &limited, NULL, 0), SERF_AGENT_OK);
    while (serf_agent_query(&agent, 5, 7, (const uint8_t *)"q", 1, payload, len, NULL, 0, &params) == SERF_AGENT_TOO_LARGE) {
        len--;
    }
    is("the longest query", packet_length(&agent), longest_query);
    is("result", serf_agent_result(&agent, &result), SERF_AGENT_OK);
    len = longest_response + 1;
    while (serf_agent_respond(&agent, 5, result.handed, payload, len) == SERF_AGENT_TOO_LARGE) {
        len--;
    }
    is("the longest response", packet_length(&agent), longest_response);
    is("close", serf_agent_close(&agent), SERF_AGENT_OK);
}

int main(void) {
    packets_of_limits(0, 0, 1024, 1024);
    packets_of_limits(1024, 1024, 1024, 1024);
    packets_of_limits(300, 0, 300, 1024);
    packets_of_limits(0, 300, 1024, 300);
    packets_of_limits(200, 9216, 200, 9216);
    packets_of_limits(9216, 200, 9216, 200);
    printf("%d passed, %d failed\n", passed, failed);
    return failed != 0;
}
