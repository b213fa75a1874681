#define _GNU_SOURCE
#include "serf_agent_store.h"

#include <errno.h>
#include <fcntl.h>
#include <libgen.h>
#include <limits.h>
#include <stdio.h>
#include <stdlib.h>
#include <string.h>
#include <sys/file.h>
#include <sys/stat.h>
#include <unistd.h>

/* The maximum number of attempts to open the file, if it is replaced each time after its opening and before its lock. */
enum { MAX_ATTEMPTS = 100 };

/* Returns the store's error for a value of errno. */
static enum serf_agent_store_error store_error_of(int error) {
    switch (error) {
    case EWOULDBLOCK:
        return SERF_AGENT_STORE_LOCKED;
    case ENOENT:
    case ENOTDIR:
        return SERF_AGENT_STORE_MISSING;
    case EISDIR:
    case ELOOP:
    case ENXIO:
        return SERF_AGENT_STORE_NOT_A_FILE;
    case EACCES:
    case EPERM:
    case EROFS:
        return SERF_AGENT_STORE_READ_ONLY;
    case ENOSPC:
    case EDQUOT:
    case EFBIG:
        return SERF_AGENT_STORE_FULL;
    case ENOMEM:
        return SERF_AGENT_STORE_NO_MEMORY;
    default:
        return SERF_AGENT_STORE_FAILED;
    }
}

const char *serf_agent_store_words(enum serf_agent_store_error error) {
    switch (error) {
    case SERF_AGENT_STORE_OK:
        return "no error";
    case SERF_AGENT_STORE_LOCKED:
        return "another agent has the file";
    case SERF_AGENT_STORE_MISSING:
        return "the folder of the file doesn't exist";
    case SERF_AGENT_STORE_NOT_A_FILE:
        return "the path is not a regular file";
    case SERF_AGENT_STORE_READ_ONLY:
        return "the file or its folder is not writable";
    case SERF_AGENT_STORE_FULL:
        return "the disk is full";
    case SERF_AGENT_STORE_NO_MEMORY:
        return "out of memory";
    case SERF_AGENT_STORE_BROKEN:
        return "an earlier call failed, or the store isn't open";
    case SERF_AGENT_STORE_FAILED:
        return "the system call failed";
    }
    return "an unknown code";
}

/* Sets the name of the file that a replacement writes first. Returns false if it is too long. */
static bool set_new_name(const struct serf_agent_store *store, char new_name[NAME_MAX + 1]) {
    return snprintf(new_name, NAME_MAX + 1, "%s.new", store->name) <= NAME_MAX;
}

/* Opens the folder of a path, and stores the file's name. Returns false after an error, which is in errno. */
static bool open_folder(struct serf_agent_store *store, const char *path) {
    char *resolved = realpath(path, NULL);
    if (resolved == NULL && errno == ENOENT) {
        resolved = strdup(path);
    }
    char *folder_path = resolved == NULL ? NULL : strdup(resolved);
    if (folder_path != NULL) {
        store->folder = open(dirname(folder_path), O_RDONLY | O_DIRECTORY | O_CLOEXEC);
        if (store->folder >= 0) {
            store->name = strdup(basename(resolved));
        }
    }
    int error = errno;
    free(folder_path);
    free(resolved);
    errno = error;
    return store->name != NULL;
}

/* Returns whether the open file still has its name. */
static bool is_still_at_path(const struct serf_agent_store *store) {
    struct stat opened, at_path;
    return fstat(store->file, &opened) == 0 && fstatat(store->folder, store->name, &at_path, AT_SYMLINK_NOFOLLOW) == 0 &&
           opened.st_dev == at_path.st_dev && opened.st_ino == at_path.st_ino;
}

/* Returns whether an open file is a regular file. If it isn't, errno is EISDIR. */
static bool is_regular_file(int file) {
    struct stat info;
    if (fstat(file, &info) != 0) {
        return false;
    }
    if (!S_ISREG(info.st_mode)) {
        errno = EISDIR;
        return false;
    }
    return true;
}

/* Opens and locks the file that has the name at present. Returns false after an error, which is in errno. */
static bool open_file(struct serf_agent_store *store) {
    const int flags = O_RDWR | O_APPEND | O_CREAT | O_CLOEXEC | O_NOFOLLOW | O_NONBLOCK;
    for (int attempt = 0; attempt < MAX_ATTEMPTS; attempt++) {
        store->file = openat(store->folder, store->name, flags, 0600);
        if (store->file < 0 || !is_regular_file(store->file) || flock(store->file, LOCK_EX | LOCK_NB) != 0) {
            return false;
        }
        if (is_still_at_path(store)) {
            return true;
        }
        close(store->file);
        store->file = -1;
    }
    errno = EWOULDBLOCK;
    return false;
}

/* Removes the new file that a crash left of a replacement, and flushes the file and its folder. Returns false after an
 * error, which is in errno. */
static bool finish_opening(struct serf_agent_store *store) {
    char new_name[NAME_MAX + 1];
    if (!set_new_name(store, new_name)) {
        errno = ENAMETOOLONG;
        return false;
    }
    if (unlinkat(store->folder, new_name, 0) != 0 && errno != ENOENT) {
        return false;
    }
    return fsync(store->file) == 0 && fsync(store->folder) == 0;
}

/* Closes the store's descriptors and frees its memory. */
static void free_store(struct serf_agent_store *store) {
    if (store->file >= 0) {
        close(store->file);
    }
    if (store->folder >= 0) {
        close(store->folder);
    }
    free(store->name);
    *store = (struct serf_agent_store){0};
}

enum serf_agent_store_error serf_agent_store_open(struct serf_agent_store *store, const char *path) {
    if (store->is_open) {
        return SERF_AGENT_STORE_LOCKED;
    }
    *store = (struct serf_agent_store){false, false, -1, -1, NULL};
    if (open_folder(store, path) && open_file(store) && finish_opening(store)) {
        store->is_open = true;
        return SERF_AGENT_STORE_OK;
    }
    int error = errno;
    free_store(store);
    errno = error;
    return store_error_of(error);
}

enum serf_agent_store_error serf_agent_store_read(struct serf_agent_store *store, uint8_t **text, size_t *len) {
    struct stat info;
    *text = NULL;
    *len = 0;
    if (!store->is_open) {
        return SERF_AGENT_STORE_BROKEN;
    }
    if (fstat(store->file, &info) != 0) {
        return store_error_of(errno);
    }
    size_t size = (size_t)info.st_size, read_len = 0;
    uint8_t *bytes = malloc(size == 0 ? 1 : size);
    if (bytes == NULL) {
        return SERF_AGENT_STORE_NO_MEMORY;
    }
    while (read_len < size) {
        ssize_t count = pread(store->file, bytes + read_len, size - read_len, (off_t)read_len);
        if (count < 0 && errno == EINTR) {
            continue;
        }
        if (count <= 0) {
            free(bytes);
            return count < 0 ? store_error_of(errno) : SERF_AGENT_STORE_FAILED;
        }
        read_len += (size_t)count;
    }
    *text = bytes;
    *len = size;
    return SERF_AGENT_STORE_OK;
}

/* Writes all of these bytes to the file. Returns false after an error, which is in errno. */
static bool write_all(int file, const uint8_t *bytes, size_t len) {
    while (len > 0) {
        ssize_t count = write(file, bytes, len);
        if (count < 0 && errno == EINTR) {
            continue;
        }
        if (count <= 0) {
            return false;
        }
        bytes += count;
        len -= (size_t)count;
    }
    return true;
}

/* Marks the store as broken because of this value of errno, and returns the store's error for it. */
static enum serf_agent_store_error break_store(struct serf_agent_store *store, int error) {
    store->is_broken = true;
    errno = error;
    return store_error_of(error);
}

enum serf_agent_store_error serf_agent_store_append(struct serf_agent_store *store, const uint8_t *bytes, size_t len) {
    if (!store->is_open || store->is_broken) {
        return SERF_AGENT_STORE_BROKEN;
    }
    if (len == 0) {
        return SERF_AGENT_STORE_OK;
    }
    if (!write_all(store->file, bytes, len) || fdatasync(store->file) != 0) {
        return break_store(store, errno);
    }
    return SERF_AGENT_STORE_OK;
}

/* Creates a file with this name next to the old one, and locks it. It has the old file's permissions and these bytes, and is
 * flushed. Returns the file's descriptor, or -1 after an error. */
static int write_new_file(struct serf_agent_store *store, const char *new_name, const uint8_t *bytes, size_t len) {
    struct stat info;
    if (fstat(store->file, &info) != 0) {
        return -1;
    }
    int file = openat(store->folder, new_name, O_RDWR | O_APPEND | O_CREAT | O_EXCL | O_CLOEXEC, 0600);
    if (file < 0) {
        return -1;
    }
    if (flock(file, LOCK_EX | LOCK_NB) == 0 && fchmod(file, info.st_mode & 0777) == 0 && write_all(file, bytes, len) &&
        fsync(file) == 0) {
        return file;
    }
    int error = errno;
    close(file);
    unlinkat(store->folder, new_name, 0);
    errno = error;
    return -1;
}

enum serf_agent_store_error serf_agent_store_replace(struct serf_agent_store *store, const uint8_t *bytes, size_t len) {
    char new_name[NAME_MAX + 1];
    if (!store->is_open || store->is_broken) {
        return SERF_AGENT_STORE_BROKEN;
    }
    if (!set_new_name(store, new_name)) {
        return break_store(store, ENAMETOOLONG);
    }
    int file = write_new_file(store, new_name, bytes, len);
    if (file < 0) {
        return break_store(store, errno);
    }
    if (renameat(store->folder, new_name, store->folder, store->name) != 0) {
        int error = errno;
        close(file);
        unlinkat(store->folder, new_name, 0);
        return break_store(store, error);
    }
    close(store->file);
    store->file = file;
    if (fsync(store->folder) != 0) {
        return break_store(store, errno);
    }
    return SERF_AGENT_STORE_OK;
}

/* Writes the agent's pending bytes, which have this length, to the file. */
static enum serf_agent_store_error write_pending(struct serf_agent_store *store, struct serf_agent *agent, size_t len) {
    struct serf_agent_bytes pending = {0};
    uint8_t *bytes = malloc(len == 0 ? 1 : len);
    if (bytes == NULL) {
        return SERF_AGENT_STORE_NO_MEMORY;
    }
    serf_agent_pending(agent, &pending, bytes, len);
    enum serf_agent_store_error error = pending.replaces ? serf_agent_store_replace(store, bytes, pending.len)
                                                         : serf_agent_store_append(store, bytes, pending.len);
    free(bytes);
    return error;
}

enum serf_agent_store_error serf_agent_store_settle(struct serf_agent_store *store, struct serf_agent *agent) {
    struct serf_agent_bytes pending = {0};
    uint8_t no_bytes = 0;
    if (serf_agent_pending(agent, &pending, &no_bytes, 0) != SERF_AGENT_OK || (pending.len == 0 && !pending.replaces)) {
        return SERF_AGENT_STORE_OK;
    }
    enum serf_agent_store_error error = write_pending(store, agent, pending.len);
    if (error == SERF_AGENT_STORE_OK) {
        serf_agent_flushed(agent);
    } else {
        int cause = errno;
        serf_agent_close(agent);
        errno = cause;
    }
    return error;
}

void serf_agent_store_close(struct serf_agent_store *store) {
    if (store->is_open) {
        free_store(store);
    }
}
