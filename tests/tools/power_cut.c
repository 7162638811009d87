/* What a power cut would leave of a folder: a process that loads this keeps, in another folder, what of its files is surely on
   disk. POWER_FOLDER is the folder, POWER_SHADOW the other one. In the shadow are `data/INODE`, the octets that were synced;
   `held/INODE`, another name of each file, so that no inode is used again; `names`, the names that were synced and how many changes
   of names they have in them; `changes`, all of these; and `delay`, the microseconds that a sync takes. Nothing is synced. */
#define _GNU_SOURCE
#include <dirent.h>
#include <dlfcn.h>
#include <fcntl.h>
#include <pthread.h>
#include <stdarg.h>
#include <stdio.h>
#include <stdlib.h>
#include <string.h>
#include <sys/stat.h>
#include <unistd.h>

#define LENGTH 4096

static pthread_mutex_t one_at_a_time = PTHREAD_MUTEX_INITIALIZER;
static long changes;

static void *next_of(const char *name) {
    return dlsym(RTLD_NEXT, name);
}

/* The name within the folder of a path that is in it, or nothing. */
static const char *name_in_folder(const char *path) {
    const char *folder = getenv("POWER_FOLDER");
    size_t length = folder ? strlen(folder) : 0;
    if (!length || !getenv("POWER_SHADOW") || strncmp(path, folder, length) || path[length] != '/')
        return NULL;
    return strchr(path + length + 1, '/') ? NULL : path + length + 1;
}

static void in_shadow(char *path, const char *part, const char *name) {
    snprintf(path, LENGTH, "%s/%s%s", getenv("POWER_SHADOW"), part, name);
}

/* Notes a change of names, which isn't on disk yet. */
static void note(const char *text) {
    char path[LENGTH];
    in_shadow(path, "changes", "");
    pthread_mutex_lock(&one_at_a_time);
    int file = ((int (*)(const char *, int, ...))next_of("open"))(path, O_WRONLY | O_CREAT | O_APPEND, 0600);
    if (write(file, text, strlen(text)) < 0)
        abort();
    close(file);
    changes++;
    pthread_mutex_unlock(&one_at_a_time);
}

static int opened(const char *called, const char *path, int flags, mode_t mode) {
    int file = ((int (*)(const char *, int, ...))next_of(called))(path, flags, mode);
    const char *name = name_in_folder(path);
    struct stat it;
    if (file >= 0 && (flags & O_CREAT) && name && !fstat(file, &it)) {
        char number[32], held[LENGTH], text[LENGTH];
        snprintf(number, sizeof number, "%lu", (unsigned long)it.st_ino);
        in_shadow(held, "held/", number);
        if (link(path, held) == 0) {
            snprintf(text, sizeof text, "made %s %s\n", name, number);
            note(text);
        }
    }
    return file;
}

#define OPENING(called)                                        \
    int called(const char *path, int flags, ...) {             \
        va_list more;                                          \
        va_start(more, flags);                                 \
        mode_t mode = flags & O_CREAT ? va_arg(more, mode_t) : 0; \
        va_end(more);                                          \
        return opened(#called, path, flags, mode);             \
    }
OPENING(open)
OPENING(open64)

int rename(const char *from, const char *to) {
    int fault = ((int (*)(const char *, const char *))next_of("rename"))(from, to);
    if (!fault && name_in_folder(from) && name_in_folder(to)) {
        char text[LENGTH];
        snprintf(text, sizeof text, "renamed %s %s\n", name_in_folder(from), name_in_folder(to));
        note(text);
    }
    return fault;
}

int unlink(const char *path) {
    int fault = ((int (*)(const char *))next_of("unlink"))(path);
    if (!fault && name_in_folder(path)) {
        char text[LENGTH];
        snprintf(text, sizeof text, "removed %s\n", name_in_folder(path));
        note(text);
    }
    return fault;
}

/* Waits for as long as a sync takes. */
static void wait_for_disk(void) {
    char path[LENGTH];
    int microseconds = 0;
    in_shadow(path, "delay", "");
    FILE *delay = fopen(path, "r");
    if (delay && fscanf(delay, "%d", &microseconds) == 1)
        usleep(microseconds);
    if (delay)
        fclose(delay);
}

/* The octets of a file as they are when its sync begins are on disk when it ends. */
static void keep_octets(const char *name, ino_t inode) {
    char path[LENGTH], kept[LENGTH], number[32], piece[1 << 16];
    static __thread unsigned long copies;
    snprintf(number, sizeof number, "new.%d.%lu", gettid(), ++copies);
    in_shadow(path, "data/", number);
    snprintf(number, sizeof number, "%lu", (unsigned long)inode);
    in_shadow(kept, "data/", number);
    FILE *copy = fopen(path, "w"), *file = fopen(name, "r");
    if (!copy || !file)
        abort();
    for (size_t got; (got = fread(piece, 1, sizeof piece, file));)
        if (fwrite(piece, 1, got, copy) != got)
            abort();
    if (fclose(copy) || fclose(file))
        abort();
    wait_for_disk();
    rename(path, kept);
}

/* The folder's names. */
static void keep_names(void) {
    char path[LENGTH], kept[LENGTH];
    wait_for_disk();
    pthread_mutex_lock(&one_at_a_time);
    in_shadow(path, "names", ".new");
    in_shadow(kept, "names", "");
    FILE *names = fopen(path, "w");
    DIR *folder = opendir(getenv("POWER_FOLDER"));
    if (!names || !folder)
        abort();
    fprintf(names, "%ld\n", changes);
    for (struct dirent *entry; (entry = readdir(folder));)
        if (entry->d_type == DT_REG)
            fprintf(names, "%s %lu\n", entry->d_name, (unsigned long)entry->d_ino);
    closedir(folder);
    if (fclose(names))
        abort();
    ((int (*)(const char *, const char *))next_of("rename"))(path, kept);
    pthread_mutex_unlock(&one_at_a_time);
}

static int synced(const char *called, int file) {
    char link_of[64], path[LENGTH] = "";
    struct stat it;
    snprintf(link_of, sizeof link_of, "/proc/self/fd/%d", file);
    ssize_t length = readlink(link_of, path, sizeof path - 1);
    if (length > 0 && !fstat(file, &it)) {
        path[length] = 0;
        if (S_ISDIR(it.st_mode) && getenv("POWER_FOLDER") && !strcmp(path, getenv("POWER_FOLDER"))) {
            keep_names();
            return 0;
        }
        if (S_ISREG(it.st_mode) && name_in_folder(path)) {
            keep_octets(link_of, it.st_ino);
            return 0;
        }
    }
    return ((int (*)(int))next_of(called))(file);
}

int fsync(int file) {
    return synced("fsync", file);
}

int fdatasync(int file) {
    return synced("fdatasync", file);
}
