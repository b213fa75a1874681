/* Records what a host does with its snapshots, at the library's calls: on which text each session opens, which of the library's bytes the
   host confirms, and when the session ends. tests/library/snapshot_lives.py renames the library's own calls (with objcopy), and these
   functions have their names.

   KITCHENRUE_LIVES names a folder. Each process writes its records into a file there. A record is a line

       KIND LIFE MOMENT LENGTH

   and LENGTH bytes and a newline after it. LIFE numbers the sessions of the process, and MOMENT is in nanoseconds since 1970. The kinds:

       open      a session opens on a text: the file's path, a zero byte, and the text
       compact   a compaction's text is pending: the text that will replace the file's
       append    the host confirms that these bytes are in its file
       replace   the host confirms that these bytes replaced its file's text
       end       the session ends

   KITCHENRUE_KILL, if it is set, is a kind and a number: the process is killed by SIGKILL at its record of this number of the kind. For
   `append` and `replace` this is before the record, when the bytes are in the file and not confirmed. For `compact` it is after the
   record. */

#define _POSIX_C_SOURCE 200809L

#include <fcntl.h>
#include <pthread.h>
#include <signal.h>
#include <stdio.h>
#include <stdlib.h>
#include <string.h>
#include <time.h>
#include <unistd.h>

#include "serf_agent.h"

/* The library's own calls. */
uint32_t library_open(struct serf_agent *handle, const uint8_t *name, size_t name_len, const struct serf_agent_settings *settings,
                      const uint8_t *text, size_t text_len);
uint32_t library_close(struct serf_agent *handle);
uint32_t library_flushed(struct serf_agent *handle);
uint32_t library_compact(struct serf_agent *handle);

/* A copy of the binding in Go calls it before it opens an agent on a file. */
void recorder_path(const struct serf_agent *handle, const uint8_t *path, size_t len);

/* The session of a handle, and its file's path. */
struct life {
    const struct serf_agent *handle;
    unsigned long number;
    char *path;
    struct life *next;
};

static pthread_mutex_t mutex = PTHREAD_MUTEX_INITIALIZER;
static struct life *lives;
static unsigned long last;
static int records = -1;

static void *room(size_t size) {
    void *all = malloc(size > 0 ? size : 1);
    if (all == NULL)
        abort();
    return all;
}

static unsigned long long moment(void) {
    struct timespec now;
    clock_gettime(CLOCK_REALTIME, &now);
    return (unsigned long long)now.tv_sec * 1000000000ULL + (unsigned long long)now.tv_nsec;
}

/* The file of this process. */
static int file(void) {
    const char *folder = getenv("KITCHENRUE_LIVES");
    char path[4096];
    if (records < 0 && folder != NULL) {
        snprintf(path, sizeof path, "%s/%ld.%llu.records", folder, (long)getpid(), moment());
        records = open(path, O_WRONLY | O_CREAT | O_APPEND | O_CLOEXEC, 0600);
        if (records < 0)
            abort();
    }
    return records;
}

/* Writes a record by one call, so that a kill leaves it whole, or leaves it torn at the file's end. */
static void record(const char *kind, const struct life *life, const void *first, size_t first_len, const void *second, size_t second_len) {
    char head[128];
    int length = snprintf(head, sizeof head, "%s %lu %llu %zu\n", kind, life->number, moment(), first_len + second_len);
    size_t size = (size_t)length + first_len + second_len + 1;
    char *whole = room(size);
    memcpy(whole, head, (size_t)length);
    if (first_len > 0)
        memcpy(whole + length, first, first_len);
    if (second_len > 0)
        memcpy(whole + (size_t)length + first_len, second, second_len);
    whole[size - 1] = '\n';
    if (file() >= 0 && write(records, whole, size) != (ssize_t)size)
        abort();
    free(whole);
}

/* Kills the process if this is the record that KITCHENRUE_KILL names. */
static void maybe_die(const char *kind) {
    static long seen;
    const char *wanted = getenv("KITCHENRUE_KILL");
    size_t length = strlen(kind);
    if (wanted != NULL && strncmp(wanted, kind, length) == 0 && wanted[length] == ' ' && ++seen == atol(wanted + length))
        kill(getpid(), SIGKILL);
}

static struct life *life_of(const struct serf_agent *handle) {
    struct life *life = lives;
    while (life != NULL && life->handle != handle)
        life = life->next;
    return life;
}

/* Records the bytes that are pending, if there are any. */
static void record_pending(struct serf_agent *handle, const char *appends, const char *replaces) {
    struct life *life = life_of(handle);
    struct serf_agent_bytes bytes;
    uint8_t none[1];
    if (life == NULL || life->number == 0 || serf_agent_pending(handle, &bytes, none, 0) != SERF_AGENT_OK)
        return;
    if (bytes.len == 0 && !bytes.replaces)
        return;
    uint8_t *all = room(bytes.len);
    if (serf_agent_pending(handle, &bytes, all, bytes.len) != SERF_AGENT_OK)
        abort();
    const char *kind = bytes.replaces ? replaces : appends;
    if (kind != NULL && strcmp(kind, "compact") != 0)
        maybe_die(kind);
    if (kind != NULL)
        record(kind, life, all, bytes.len, NULL, 0);
    if (kind != NULL && strcmp(kind, "compact") == 0)
        maybe_die(kind);
    free(all);
}

static void forget(const struct serf_agent *handle) {
    for (struct life **at = &lives; *at != NULL; at = &(*at)->next) {
        struct life *life = *at;
        if (life->handle == handle) {
            if (life->number > 0)
                record("end", life, NULL, 0, NULL, 0);
            *at = life->next;
            free(life->path);
            free(life);
            return;
        }
    }
}

void recorder_path(const struct serf_agent *handle, const uint8_t *path, size_t len) {
    pthread_mutex_lock(&mutex);
    forget(handle);
    struct life *life = room(sizeof *life);
    *life = (struct life){handle, 0, room(len + 1), lives};
    memcpy(life->path, path, len);
    life->path[len] = 0;
    lives = life;
    pthread_mutex_unlock(&mutex);
}

uint32_t serf_agent_open(struct serf_agent *handle, const uint8_t *name, size_t name_len, const struct serf_agent_settings *settings,
                         const uint8_t *text, size_t text_len) {
    uint32_t code = library_open(handle, name, name_len, settings, text, text_len);
    pthread_mutex_lock(&mutex);
    struct life *life = life_of(handle);
    if (life != NULL && code == SERF_AGENT_OK) {
        life->number = ++last;
        record("open", life, life->path, strlen(life->path) + 1, text, text_len);
    }
    pthread_mutex_unlock(&mutex);
    return code;
}

uint32_t serf_agent_compact(struct serf_agent *handle) {
    uint32_t code = library_compact(handle);
    pthread_mutex_lock(&mutex);
    if (code == SERF_AGENT_OK)
        record_pending(handle, NULL, "compact");
    pthread_mutex_unlock(&mutex);
    return code;
}

uint32_t serf_agent_flushed(struct serf_agent *handle) {
    pthread_mutex_lock(&mutex);
    record_pending(handle, "append", "replace");
    pthread_mutex_unlock(&mutex);
    return library_flushed(handle);
}

uint32_t serf_agent_close(struct serf_agent *handle) {
    pthread_mutex_lock(&mutex);
    forget(handle);
    pthread_mutex_unlock(&mutex);
    return library_close(handle);
}
