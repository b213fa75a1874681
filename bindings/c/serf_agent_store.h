/* The file of an agent's snapshot, for a host in C (Linux).
 *
 * libserf_agent_c.a opens no file. After each call, its host has to write the pending bytes to the file, and flush it, before
 * it acts on the call's other results. This store does that.
 *
 * The file is locked by flock(2), so only one store at a time can have it open. The system releases the lock when the process ends,
 * however it ends. The file is close-on-exec. A forked child that runs no other program shares the lock until it ends or closes
 * the store. It must do nothing else with the store.
 *
 * A replacement writes FILE.new next to the file, flushes it to the disk, and renames it. So a crash leaves the old text or the
 * new one, never a part of one. The next opening removes a FILE.new that a crash left.
 *
 * After an error in an append or a replacement, the store is broken, because nobody knows what is on the disk. It accepts no
 * more bytes until it, and the agent with it, is closed and opened again.
 *
 * The store is not proved. tests/library/embed.py and tests/library/crashes.py test it.
 */
#ifndef SERF_AGENT_STORE_H
#define SERF_AGENT_STORE_H

#include "serf_agent.h"

#include <stdbool.h>
#include <stddef.h>
#include <stdint.h>

#ifdef __cplusplus
extern "C" {
#endif

enum serf_agent_store_error {
    SERF_AGENT_STORE_OK,
    /* Another store, in this process or another one, has locked the file, or this store is already open. */
    SERF_AGENT_STORE_LOCKED,
    /* The folder that should contain the file doesn't exist. */
    SERF_AGENT_STORE_MISSING,
    /* The path is a folder, a device or anything else that is not a regular file. */
    SERF_AGENT_STORE_NOT_A_FILE,
    /* The file, its folder or its file system is not writable. */
    SERF_AGENT_STORE_READ_ONLY,
    /* The disk, or this user's quota, is full. */
    SERF_AGENT_STORE_FULL,
    SERF_AGENT_STORE_NO_MEMORY,
    /* An earlier call failed, or the store isn't open. */
    SERF_AGENT_STORE_BROKEN,
    /* Any other error that the system reported, which is in errno. */
    SERF_AGENT_STORE_FAILED
};

/* A store. It is all 0 at first (`struct serf_agent_store store = {0};`), and after that only these functions use its fields. */
struct serf_agent_store {
    bool is_open;
    bool is_broken;
    /* The file's descriptor, its folder's, and its name in the folder. */
    int file;
    int folder;
    char *name;
};

/* Opens or creates the file, and locks it. It follows a symbolic link to its file. After an error, the store isn't open, and
 * errno has the cause. */
enum serf_agent_store_error serf_agent_store_open(struct serf_agent_store *store, const char *path);

/* Reads the whole file, which is the text for serf_agent_open, into memory from malloc. The caller frees it. */
enum serf_agent_store_error serf_agent_store_read(struct serf_agent_store *store, uint8_t **text, size_t *len);

/* Appends these bytes and flushes them to the disk. It does nothing if there are none. */
enum serf_agent_store_error serf_agent_store_append(struct serf_agent_store *store, const uint8_t *bytes, size_t len);

/* Replaces the file's content durably with these bytes. */
enum serf_agent_store_error serf_agent_store_replace(struct serf_agent_store *store, const uint8_t *bytes, size_t len);

/* Writes the bytes that are pending after the agent's last call, or after the calls of a burst, flushes them, and confirms this to
 * the agent. A host calls it after each call that writes, or once after the calls of a burst, before it acts on their results.
 * After an error, the agent is closed, and the host has to open the store and the agent again. */
enum serf_agent_store_error serf_agent_store_settle(struct serf_agent_store *store, struct serf_agent *agent);

/* Releases the lock and closes the store. A store that isn't open stays closed. */
void serf_agent_store_close(struct serf_agent_store *store);

/* Describes an error, for example "another agent has the file". */
const char *serf_agent_store_words(enum serf_agent_store_error error);

#ifdef __cplusplus
}
#endif

#endif
