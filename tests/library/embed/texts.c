/* The sentences of codes, reasons and errors: each number of the header has its own, every other number has that for unknown numbers,
 * and the version is that of the file VERSION, which is passed as the argument.
 *
 * Prints `FAILED ..` for each that doesn't hold, and `N passed, M failed`. */
#include "counts.h"
#include "serf_agent.h"
#include "serf_agent_text.h"

#include <ctype.h>
#include <string.h>

/* Whether a sentence is one: it begins with a small letter, and has no full stop. */
static uint32_t is_sentence(const char *text) {
    return text[0] != 0 && !isupper((unsigned char)text[0]) && text[strlen(text) - 1] != '.';
}

/* All numbers from the first to the last have different sentences, and none of them has the sentence for unknown numbers. */
static void differ(const char *what, const char *(*text)(uint32_t), uint32_t first, uint32_t last) {
    const char *unknown = text(last + 1);
    is(what, is_sentence(unknown), 1);
    is(what, strstr(unknown, "this version doesn't know") != NULL, 1);
    is(what, strcmp(text(UINT32_MAX), unknown) == 0, 1);
    for (uint32_t one = first; one <= last; one++) {
        is(what, is_sentence(text(one)), 1);
        is(what, strcmp(text(one), unknown) != 0, 1);
        for (uint32_t other = first; other < one; other++) {
            is(what, strcmp(text(one), text(other)) != 0, 1);
        }
    }
}

int main(int count, char **words) {
    differ("codes", serf_agent_code_text, SERF_AGENT_OK, SERF_AGENT_NOT_PENDING);
    differ("reasons", serf_agent_reason_text, SERF_AGENT_NO_REASON, SERF_AGENT_RESPONSE_TWICE);
    differ("errors", serf_agent_error_text, SERF_AGENT_ERROR_EMPTY, SERF_AGENT_ERROR_MAX_TIME);
    is("a code", strcmp(serf_agent_code_text(SERF_AGENT_PENDING), "bytes are pending for the host's file") == 0, 1);
    is("a reason", strcmp(serf_agent_reason_text(SERF_AGENT_SEEN), "the same event or query was accepted before") == 0, 1);
    is("an error", strcmp(serf_agent_error_text(SERF_AGENT_ERROR_EMPTY), "the packet is empty") == 0, 1);
    is("no error", strcmp(serf_agent_error_text(0), serf_agent_error_text(UINT32_MAX)) == 0, 1);
    is("the version", count == 2 && strcmp(serf_agent_version(), words[1]) == 0, 1);
    printf("%d passed, %d failed\n", passed, failed);
    return failed != 0;
}
