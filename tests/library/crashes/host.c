/* An agent over a file, driven by lines: what tests/library/crashes.py kills.
 *
 *     host FILE
 *
 * Lines in: `r HEX` (receive), `m HEX` (merge), `f HEX` (fire), `c` (compact), `k` (save the member clock). Each is answered,
 * once its bytes are on the disk, by the events that it hands out, as `e TIME HEX`, and then by `CODE SIZE INODE`, the call's
 * code and what the file is by then. An answer is one write: what is read of it was handed out. */
#include "serf_agent.h"
#include "serf_agent_store.h"

#include <stdio.h>
#include <stdlib.h>
#include <string.h>
#include <sys/stat.h>

enum { ROOM = 1 << 16 };

static struct serf_agent agent;
static struct serf_agent_store store;

static int digit(char of) {
    return of >= '0' && of <= '9' ? of - '0' : of >= 'a' && of <= 'f' ? of - 'a' + 10 : -1;
}

static size_t bytes_of(const char *hex, uint8_t *to) {
    size_t len = 0;
    for (; digit(hex[0]) >= 0 && digit(hex[1]) >= 0; hex += 2) {
        to[len++] = (uint8_t)(digit(hex[0]) * 16 + digit(hex[1]));
    }
    return len;
}

static void stop_at(enum serf_agent_store_error fault) {
    if (fault != SERF_AGENT_STORE_OK) {
        fprintf(stderr, "host: %s\n", serf_agent_store_words(fault));
        exit(3);
    }
}

/* Runs the handlers, and prints the file's identity: all of it after the file's flush. */
static void answer(uint32_t code) {
    struct serf_agent_event event;
    struct stat file;
    uint8_t name[1024], none = 0;
    stop_at(serf_agent_store_settle(&store, &agent));
    for (size_t i = 0; serf_agent_event(&agent, i, &event, name, sizeof name, &none, 0) == SERF_AGENT_OK; i++) {
        printf("e %llu ", (unsigned long long)event.time);
        for (size_t k = 0; k < event.name_len; k++) {
            printf("%02x", name[k]);
        }
        printf("\n");
    }
    if (fstat(store.file, &file) != 0) {
        exit(3);
    }
    printf("%u %lld %llu\n", code, (long long)file.st_size, (unsigned long long)file.st_ino);
    fflush(stdout);
}

static uint32_t called(const char *line, uint64_t now) {
    static uint8_t bytes[ROOM];
    size_t len = bytes_of(line + 2, bytes);
    switch (line[0]) {
    case 'r':
        return serf_agent_receive(&agent, now, bytes, len, false);
    case 'm':
        return serf_agent_merge(&agent, bytes, len, false);
    case 'f':
        return serf_agent_fire(&agent, bytes, len, bytes, 0, false);
    case 'c':
        return serf_agent_compact(&agent);
    default:
        return serf_agent_save_member_clock(&agent);
    }
}

static uint32_t opened(const char *path) {
    static const struct serf_agent_settings settings = {64, 64, 512, 1024, 1024, 1024, 1024, false, false};
    uint8_t *text;
    size_t len;
    stop_at(serf_agent_store_open(&store, path));
    stop_at(serf_agent_store_read(&store, &text, &len));
    uint32_t code = serf_agent_open(&agent, (const uint8_t *)"host", 4, &settings, text, len);
    free(text);
    return code;
}

int main(int count, char **words) {
    static char line[2 * ROOM], out[2 * ROOM];
    if (count != 2) {
        return 2;
    }
    setvbuf(stdout, out, _IOFBF, sizeof out);
    answer(opened(words[1]));
    for (uint64_t now = 1; fgets(line, sizeof line, stdin) != NULL; now++) {
        answer(called(line, now));
    }
    serf_agent_close(&agent);
    serf_agent_store_close(&store);
    return 0;
}
