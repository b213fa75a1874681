/* The store of bindings/c, driven by lines of standard input: `open PATH`, `read`, `append HEX`, `replace HEX`, `close`, each
 * for the store 0, or for the store 1 if the line begins with `1 `. The answer to each line is `ok`, after a `read` followed by the
 * text in hex, or the error's name. */
#include "serf_agent_store.h"

#include <stdio.h>
#include <stdlib.h>
#include <string.h>

static const char *const names[] = {"ok", "Locked", "MissingFolder", "NotAFile", "ReadOnly", "Full", "NoMemory", "Broken", "Failed"};

static enum serf_agent_store_error read_out(struct serf_agent_store *store) {
    uint8_t *text;
    size_t len;
    enum serf_agent_store_error fault = serf_agent_store_read(store, &text, &len);
    if (fault == SERF_AGENT_STORE_OK) {
        for (size_t i = 0; i < len; i++) {
            printf("%02x", text[i]);
        }
        printf(" ");
    }
    free(text);
    return fault;
}

static size_t bytes_of(const char *hex, uint8_t *to) {
    size_t len = 0;
    for (unsigned byte; sscanf(hex, "%2x", &byte) == 1; hex += 2) {
        to[len++] = (uint8_t)byte;
    }
    return len;
}

static enum serf_agent_store_error done(struct serf_agent_store *store, const char *line) {
    static uint8_t bytes[4096];
    const char *word = strchr(line, ' ');
    word = word == NULL ? "" : word + 1;
    switch (line[0]) {
    case 'o':
        return serf_agent_store_open(store, word);
    case 'a':
        return serf_agent_store_append(store, bytes, bytes_of(word, bytes));
    case 'c':
        serf_agent_store_close(store);
        return SERF_AGENT_STORE_OK;
    default:
        return line[2] == 'a' ? read_out(store) : serf_agent_store_replace(store, bytes, bytes_of(word, bytes));
    }
}

int main(void) {
    static char line[16384];
    static struct serf_agent_store stores[2];
    while (fgets(line, sizeof line, stdin) != NULL) {
        line[strcspn(line, "\n")] = '\0';
        int number = line[0] == '1';
        printf("%s\n", names[done(&stores[number], number ? line + 2 : line)]);
        fflush(stdout);
    }
    serf_agent_store_close(&stores[0]);
    serf_agent_store_close(&stores[1]);
    return 0;
}
