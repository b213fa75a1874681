/* What the store of bindings/c does if there is no memory, if its disk is full, and if its file is shorter than the system
 * reported: `settle FOLDER`. Nothing that isn't on the disk counts as written, and its agent is closed. Also what it does when it is
 * opened twice, what memory it frees, and that a text can be replaced by an empty one.
 *
 * Linked with malloc and pread wrapped. Prints `FAILED ..` for each that doesn't hold, and `N passed, M failed`. */
#define _GNU_SOURCE
#include "serf_agent.h"
#include "serf_agent_store.h"

#include <fcntl.h>
#include <malloc.h>
#include <stdio.h>
#include <stdlib.h>
#include <string.h>
#include <unistd.h>

void *__real_malloc(size_t size);
ssize_t __real_pread(int file, void *to, size_t len, off_t at);
void *__wrap_malloc(size_t size);
ssize_t __wrap_pread(int file, void *to, size_t len, off_t at);

static bool is_starved;
/* The maximum number of bytes that a read returns, and the length of the file. */
static size_t max_len = 4096, end = 4096;

void *__wrap_malloc(size_t size) {
    return is_starved ? NULL : __real_malloc(size);
}

ssize_t __wrap_pread(int file, void *to, size_t len, off_t at) {
    size_t left = (size_t)at < end ? end - (size_t)at : 0;
    len = len < max_len ? len : max_len;
    return __real_pread(file, to, len < left ? len : left, at);
}

static int passed, failed;

static void holds(const char *what, bool is) {
    passed += is;
    failed += !is;
    if (!is) {
        printf("FAILED %s\n", what);
    }
}

static struct serf_agent_store store;
static struct serf_agent agent;

static void open_store(const char *folder) {
    static char path[4096];
    snprintf(path, sizeof path, "%s/file", folder);
    serf_agent_store_close(&store);
    if (serf_agent_store_open(&store, path) != SERF_AGENT_STORE_OK) {
        printf("FAILED %s can't be opened\n0 passed, 1 failed\n", path);
        exit(1);
    }
}

/* An agent that has fired, and whose line isn't in the file yet. */
static void fire(const char *folder) {
    static const struct serf_agent_settings settings = {512, 512, 512, 1024, 1024, 1024, 1024, false, false};
    open_store(folder);
    serf_agent_close(&agent);
    holds("open", serf_agent_open(&agent, (const uint8_t *)"a", 1, &settings, NULL, 0) == SERF_AGENT_OK);
    holds("fire", serf_agent_fire(&agent, (const uint8_t *)"x", 1, NULL, 0, false) == SERF_AGENT_OK);
}

/* The file's bytes, as many as were requested. */
static bool has(const char *text) {
    uint8_t *found;
    size_t len;
    bool is = serf_agent_store_read(&store, &found, &len) == SERF_AGENT_STORE_OK && len == strlen(text) && memcmp(found, text, len) == 0;
    free(found);
    return is;
}

static bool is_closed(void) {
    struct serf_agent_result result;
    struct serf_agent_clocks clocks;
    return serf_agent_result(&agent, &result) == SERF_AGENT_EMPTY && serf_agent_clocks(&agent, &clocks) == SERF_AGENT_EMPTY;
}

static void reads(const char *folder, const char *text) {
    uint8_t *found = (uint8_t *)"";
    size_t len = 9;
    open_store(folder);
    max_len = 4;
    holds("a text that is read piece by piece", has(text));
    for (end = 0; end < strlen(text); end++) {
        holds("a file that became shorter",
          serf_agent_store_read(&store, &found, &len) == SERF_AGENT_STORE_FAILED && found == NULL && len == 0);
    }
    holds("a file that did not", has(text));
    max_len = end = 4096;
    is_starved = true;
    holds("no memory for a text", serf_agent_store_read(&store, &found, &len) == SERF_AGENT_STORE_NO_MEMORY && found == NULL && len == 0);
    is_starved = false;
}

/* A store that is open can't be opened again, and stays as it is. */
static void opened_twice(const char *folder) {
    static char path[4096];
    open_store(folder);
    snprintf(path, sizeof path, "%s/other", folder);
    int file = store.file;
    holds("a store that is open", serf_agent_store_open(&store, path) == SERF_AGENT_STORE_LOCKED);
    holds("it keeps its file", store.file == file && store.is_open && has(""));
    holds("the other file isn't made", access(path, F_OK) != 0);
    holds("it accepts a line", serf_agent_store_append(&store, (const uint8_t *)"x\n", 2) == SERF_AGENT_STORE_OK && has("x\n"));
}

/* A store that is closed has freed all its memory. */
static void freed(const char *folder) {
    enum { TIMES = 2000, MAX_GROWTH = 8192 };
    open_store(folder);
    serf_agent_store_close(&store);
    size_t before = mallinfo2().uordblks;
    for (int i = 0; i < TIMES; i++) {
        open_store(folder);
        serf_agent_store_close(&store);
    }
    holds("a closed store has no memory", mallinfo2().uordblks < before + MAX_GROWTH);
}

/* An agent whose text is to be replaced by nothing. */
static void replaced_by_nothing(const char *folder) {
    static const struct serf_agent_settings settings = {512, 512, 512, 1024, 1024, 1024, 1024, false, false};
    static const uint8_t text[] = "other\n";
    struct serf_agent_bytes about = {0};
    uint8_t none = 0;
    open_store(folder);
    holds("a text", serf_agent_store_replace(&store, text, sizeof text - 1) == SERF_AGENT_STORE_OK);
    holds("open on it", serf_agent_open(&agent, (const uint8_t *)"a", 1, &settings, text, sizeof text - 1) == SERF_AGENT_OK);
    holds("compact", serf_agent_compact(&agent) == SERF_AGENT_OK);
    holds("nothing is pending", serf_agent_pending(&agent, &about, &none, 0) == SERF_AGENT_OK && about.replaces && about.len == 0);
    holds("it is replaced", serf_agent_store_settle(&store, &agent) == SERF_AGENT_STORE_OK && has(""));
    holds("the agent accepts calls", serf_agent_fire(&agent, (const uint8_t *)"x", 1, NULL, 0, false) == SERF_AGENT_OK);
    holds("with its line", serf_agent_store_settle(&store, &agent) == SERF_AGENT_STORE_OK && has("event-clock: 1\n"));
    serf_agent_close(&agent);
}

int main(int count, char **words) {
    static const char line[] = "event-clock: 1\n";
    if (count != 2) {
        return 3;
    }
    opened_twice(words[1]);
    holds("the file is empty again", serf_agent_store_replace(&store, NULL, 0) == SERF_AGENT_STORE_OK);
    freed(words[1]);
    fire(words[1]);
    is_starved = true;
    holds("no memory for a line", serf_agent_store_settle(&store, &agent) == SERF_AGENT_STORE_NO_MEMORY);
    is_starved = false;
    holds("no memory: the agent is closed", is_closed());
    holds("no memory: nothing is written", has(""));
    holds("no memory: nothing more is written", serf_agent_store_settle(&store, &agent) == SERF_AGENT_STORE_OK && has(""));
    fire(words[1]);
    int full = open("/dev/full", O_WRONLY | O_CLOEXEC), own = dup(store.file);
    holds("a full disk", dup2(full, store.file) >= 0 && serf_agent_store_settle(&store, &agent) == SERF_AGENT_STORE_FULL);
    holds("a full disk: the agent is closed", is_closed());
    holds("a full disk: the file is as it was", dup2(own, store.file) >= 0 && has(""));
    holds("a full disk: the store is broken", serf_agent_store_append(&store, (const uint8_t *)"x", 1) == SERF_AGENT_STORE_BROKEN);
    close(full);
    close(own);
    fire(words[1]);
    holds("a line", serf_agent_store_settle(&store, &agent) == SERF_AGENT_STORE_OK && has(line));
    holds("a line: the agent continues", !is_closed());
    serf_agent_close(&agent);
    reads(words[1], line);
    replaced_by_nothing(words[1]);
    serf_agent_store_close(&store);
    printf("%d passed, %d failed\n", passed, failed);
    return failed > 0;
}
