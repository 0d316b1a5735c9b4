/* Folders of pcalc's stores: gives their files to a store before it is opened, and makes such files. For C11 and C++17 on POSIX; include
 * this before the system's headers. Tested; nothing of it is proved. */
#ifndef PCALC_FOLDER_H
#define PCALC_FOLDER_H

#ifndef _POSIX_C_SOURCE
#define _POSIX_C_SOURCE 200809L
#endif

#include "pcalc.h"

#include <dirent.h>
#include <errno.h>
#include <fcntl.h>
#include <stdio.h>
#include <stdlib.h>
#include <string.h>
#include <sys/stat.h>
#include <unistd.h>

static inline char *pcalc_path(const char *dir, const char *name)
{
    size_t length = strlen(dir) + strlen(name) + 2;
    char *path = (char *)malloc(length);
    if (path) {
        snprintf(path, length, "%s/%s", dir, name);
    }
    return path;
}

static inline int pcalc_write_all(int file, const uint8_t *bytes, size_t length)
{
    while (length > 0) {
        ssize_t count = write(file, bytes, length);
        if (count < 0 && errno == EINTR) {
            continue;
        }
        if (count <= 0) {
            return count < 0 ? errno : EIO;
        }
        bytes += count;
        length -= (size_t)count;
    }
    return 0;
}

/* A copy of the text that the store shows, for the caller to free; null after an allocation failure. */
static inline uint8_t *pcalc_shown(pcalc *store, const pcalc_answer *answer)
{
    uint8_t none = 0;
    uint8_t *text = (uint8_t *)malloc(answer->value_bytes + 1);
    if (text) {
        pcalc_copy(store, 0, &none, 0, text, answer->value_bytes);
    }
    return text;
}

/* Writes a file under another name, flushes it to the disk, and renames it: until then an existing file of the name stays. Returns 0 or an
 * error number. */
static inline int pcalc_make_file(const char *dir, const char *name, const uint8_t *bytes, size_t length)
{
    int failed = ENOMEM;
    size_t room = strlen(name) + 5;
    char *fresh = (char *)malloc(room), *from = NULL, *to = pcalc_path(dir, name);
    if (fresh) {
        snprintf(fresh, room, "%s.new", name);
        from = pcalc_path(dir, fresh);
    }
    if (from && to) {
        int file = open(from, O_WRONLY | O_CREAT | O_EXCL, 0666), folder = open(dir, O_RDONLY);
        failed = file < 0 || folder < 0 ? errno : pcalc_write_all(file, bytes, length);
        if (!failed && (fsync(file) || rename(from, to) || fsync(folder))) {
            failed = errno;
        }
        if (failed && file >= 0) {
            unlink(from);
        }
        if (file >= 0) {
            close(file);
        }
        if (folder >= 0) {
            close(folder);
        }
    }
    free(fresh);
    free(from);
    free(to);
    return failed;
}

/* Gives a file of a folder to a store that isn't open yet. Returns 0 or an error number; ENOENT if it doesn't exist. */
static inline int pcalc_give_file(pcalc *store, uint32_t what, const char *dir, const char *name)
{
    pcalc_answer answer;
    struct stat about;
    int failed = ENOMEM, file = -1;
    uint8_t *bytes = NULL;
    char *path = pcalc_path(dir, name);
    if (path && ((file = open(path, O_RDONLY)) < 0 || fstat(file, &about))) {
        failed = errno;
    } else if (path && (bytes = (uint8_t *)malloc((size_t)about.st_size + 1)) != NULL) {
        size_t length = 0, all = (size_t)about.st_size;
        ssize_t count = 1;
        while (length < all && count > 0) {
            count = read(file, bytes + length, all - length);
            length += count > 0 ? (size_t)count : 0;
        }
        failed = count < 0 ? errno : pcalc_give(store, what, bytes, length, &answer) == PCALC_GIVEN ? 0 : ENOMEM;
    }
    if (file >= 0) {
        close(file);
    }
    free(bytes);
    free(path);
    return failed;
}

/* Writes all of the log's entries after the first `*number` at the end of a file that has the log's header and those before, and adds to
 * `*number` how many. Returns 0 or an error number; after an error the file must not be written any more, as its last entry may not be
 * whole. */
static inline int pcalc_write_entries(pcalc *store, int file, uint32_t *number)
{
    pcalc_answer answer;
    int failed = 0;
    do {
        uint8_t *text = pcalc_show(store, PCALC_ENTRIES, *number, &answer) == PCALC_TEXT ? pcalc_shown(store, &answer) : NULL;
        failed = text ? pcalc_write_all(file, text, answer.value_bytes) : ENOMEM;
        *number += failed ? 0 : (uint32_t)answer.entries;
        free(text);
    } while (!failed && answer.entries > 0);
    return failed;
}

static inline int pcalc_is_part(const struct dirent *entry)
{
    size_t length = strlen(entry->d_name);
    return length >= 4 && strcmp(entry->d_name + length - 4, ".pcp") == 0;
}

/* Whether a folder has it because of a run, or of a served store. */
static inline int pcalc_is_of_store(const struct dirent *entry)
{
    const char *name = entry->d_name;
    return pcalc_is_part(entry) || strcmp(name, "base.pcb") == 0 || strcmp(name, "log.pcl") == 0 || strcmp(name, "lock") == 0
           || (strncmp(name, "gen-", 4) == 0 && strlen(name) == 11 && strspn(name + 4, "0123456789") == 7);
}

/* Returns 0 if the folder has no file of a run and none of a served store, ENOTEMPTY if it has one, or another error number. */
static inline int pcalc_is_occupied(const char *dir)
{
    DIR *folder = opendir(dir);
    int found = folder ? 0 : errno;
    struct dirent *entry;
    errno = 0;
    while (folder && !found && (entry = readdir(folder)) != NULL) {
        found = pcalc_is_of_store(entry) ? ENOTEMPTY : 0;
    }
    found = found ? found : errno;
    if (folder) {
        closedir(folder);
    }
    return found;
}

static inline int pcalc_by_bytes(const struct dirent **first, const struct dirent **second)
{
    return strcmp((*first)->d_name, (*second)->d_name);
}

/* Gives the folder of a run, or a generation of a served store, to a store that isn't open yet: its base, its parts in the order of their
 * names, and its log, if it has one. Returns 0 or an error number. */
static inline int pcalc_give_folder(pcalc *store, const char *dir)
{
    struct dirent **names = NULL;
    int failed = pcalc_give_file(store, PCALC_BASE, dir, "base.pcb");
    int count = failed ? 0 : scandir(dir, &names, pcalc_is_part, pcalc_by_bytes);
    failed = failed ? failed : count < 0 ? errno : 0;
    for (int i = 0; i < count; i++) {
        failed = failed ? failed : pcalc_give_file(store, PCALC_PART, dir, names[i]->d_name);
        free(names[i]);
    }
    free(names);
    if (!failed) {
        failed = pcalc_give_file(store, PCALC_LOG, dir, "log.pcl");
        failed = failed == ENOENT ? 0 : failed;
    }
    return failed;
}

#endif
