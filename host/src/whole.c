/*
 * Where the file system can, the file has no name at all while it is written (O_TMPFILE), so that nothing of it
 * is left however the program ends. Elsewhere it has a temporary name, which signals that can be caught take away.
 */
#define _GNU_SOURCE /* O_PATH, O_TMPFILE, syncfs */
#include "whole.h"

#include <errno.h>
#include <fcntl.h>
#include <signal.h>
#include <stdbool.h>
#include <stdio.h>
#include <string.h>
#include <unistd.h>

enum { MOST_LINKS = 40, MOST_TRIES = 100, NEW_MODE = 0666, KEPT_MODE = 0777 };

/* The temporary name, if there is one. One file is written at a time. */
static struct {
    volatile sig_atomic_t is_there;
    int folder;
    char name[40];
} temporary;

void whole_drop_at_once(void)
{
    if (temporary.is_there)
        unlinkat(temporary.folder, temporary.name, 0);
    temporary.is_there = 0;
}

/* The signal comes again once its handler is left, and then does what it usually does. */
static void on_end(int number)
{
    whole_drop_at_once();
    raise(number);
}

static void watch_ends(void)
{
    static const int ends[] = {SIGINT, SIGTERM, SIGHUP, SIGPIPE, SIGQUIT, SIGXCPU, SIGXFSZ};
    struct sigaction action = {.sa_handler = on_end, .sa_flags = (int)SA_RESETHAND}, old;
    sigemptyset(&action.sa_mask);
    for (size_t i = 0; i < sizeof ends / sizeof *ends; i++)
        if (sigaction(ends[i], NULL, &old) == 0 && old.sa_handler != SIG_IGN)
            sigaction(ends[i], &action, NULL);
}

/* No signal comes between a change to names and the note of it. */
static sigset_t hold_signals(void)
{
    sigset_t all, before;
    sigfillset(&all);
    sigprocmask(SIG_BLOCK, &all, &before);
    return before;
}

static void let_signals(sigset_t before)
{
    sigprocmask(SIG_SETMASK, &before, NULL);
}

static int create(struct whole *whole, const char *name)
{
    whole->file = openat(whole->folder, name, O_WRONLY | O_CREAT | O_EXCL | O_CLOEXEC, NEW_MODE);
    return whole->file < 0 ? -1 : 0;
}

/* Gives a file without a name this one. */
static int give_name(struct whole *whole, const char *name)
{
    char file[40];
    snprintf(file, sizeof file, "/proc/self/fd/%d", whole->file);
    return linkat(AT_FDCWD, file, whole->folder, name, AT_SYMLINK_FOLLOW);
}

/* Makes a temporary name that nobody has. Signals are held. */
static bool make_temporary(struct whole *whole, int (*make)(struct whole *whole, const char *name))
{
    temporary.folder = whole->folder;
    for (unsigned i = 0; i < MOST_TRIES && !temporary.is_there; i++) {
        snprintf(temporary.name, sizeof temporary.name, ".harptimber-%ld-%u", (long)getpid(), i);
        temporary.is_there = make(whole, temporary.name) == 0;
        if (!temporary.is_there && errno != EEXIST)
            break;
    }
    return temporary.is_there;
}

/* Opens a file to write to. Without /proc, one that has no name couldn't be given one. */
static bool open_file(struct whole *whole)
{
    whole->file = -1;
    if (access("/proc/self/fd", X_OK) == 0)
        whole->file = openat(whole->folder, ".", O_TMPFILE | O_WRONLY | O_CLOEXEC, NEW_MODE);
    if (whole->file >= 0)
        return true;
    sigset_t before = hold_signals();
    watch_ends();
    bool made = make_temporary(whole, create);
    let_signals(before);
    return made;
}

static void close_folder(const struct whole *whole)
{
    if (whole->folder >= 0)
        close(whole->folder);
}

/* Splits a path, and opens the folder; a path that isn't absolute starts at the folder before. */
static bool enter(struct whole *whole, char *path)
{
    char *slash = strrchr(path, '/');
    const char *name = slash == NULL ? path : slash + 1;
    errno = *name == '\0' ? ENOENT : ENAMETOOLONG;
    if (*name == '\0' || strlen(name) >= sizeof whole->name)
        return false;
    strcpy(whole->name, name);
    if (slash != NULL)
        slash[slash == path] = '\0'; /* the root's slash stays */
    int folder = openat(whole->folder, slash == NULL ? "." : path, O_PATH | O_DIRECTORY | O_CLOEXEC);
    close_folder(whole);
    whole->folder = folder;
    return folder >= 0;
}

/* Finds the folder and the name that a path leads to, as open does: link by link, also where nothing is. */
static bool find(struct whole *whole, const char *word)
{
    char path[PATH_MAX];
    whole->folder = AT_FDCWD;
    errno = ENAMETOOLONG;
    if (strlen(word) >= sizeof path)
        return false;
    strcpy(path, word);
    for (int links = 0; links < MOST_LINKS; links++) {
        if (!enter(whole, path))
            return false;
        ssize_t len = readlinkat(whole->folder, whole->name, path, sizeof path - 1);
        if (len < 0)
            return errno == EINVAL || errno == ENOENT; /* no link */
        path[len] = '\0';
    }
    errno = ELOOP;
    return false;
}

/* Whether a file has the name; one that was deleted can be open still, and /proc leads to it. */
static bool has_name(const struct whole *whole, const struct stat *file)
{
    struct stat info;
    return fstatat(whole->folder, whole->name, &info, AT_SYMLINK_NOFOLLOW) == 0 && info.st_dev == file->st_dev &&
           info.st_ino == file->st_ino;
}

static void take_after(int file, const struct stat *old)
{
    if (fchown(file, old->st_uid, old->st_gid) != 0) {
        /* Then it is the user's own, as any file that they make. */
    }
    fchmod(file, old->st_mode & KEPT_MODE);
}

const char *whole_begin(struct whole *whole, const char *path, const struct stat *old)
{
    const char *why = NULL;
    if (!find(whole, path))
        why = strerror(errno);
    else if (old != NULL && !has_name(whole, old))
        why = "is a file without a name";
    else if (!open_file(whole))
        why = old != NULL && errno == EACCES ? "is in a folder that can't be written" : strerror(errno);
    if (why != NULL)
        close_folder(whole);
    else if (old != NULL)
        take_after(whole->file, old);
    return why;
}

/* Whether what was written has arrived: on the medium, and as far as closing a file tells. */
static bool has_arrived(int file)
{
    int copy = fsync(file) == 0 ? dup(file) : -1;
    return copy >= 0 && close(copy) == 0;
}

/* Only a name can take another's place. Signals are held. */
static bool name_file(struct whole *whole)
{
    if (!temporary.is_there && give_name(whole, whole->name) == 0)
        return true;
    if (!temporary.is_there && (errno != EEXIST || !make_temporary(whole, give_name)))
        return false;
    if (renameat(whole->folder, temporary.name, whole->folder, whole->name) != 0)
        return false;
    temporary.is_there = 0;
    return true;
}

/* Puts the folder on the medium. One that may not be read can't be opened for that: then its whole file system is. */
static int sync_folder(const struct whole *whole)
{
    int folder = openat(whole->folder, ".", O_RDONLY | O_DIRECTORY | O_CLOEXEC);
    if (folder < 0)
        return errno == EACCES ? syncfs(whole->file) : -1;
    int status = fsync(folder), error = errno;
    close(folder);
    errno = error;
    return status;
}

/*
 * Puts the name on the medium too. Where that fails, a cut may leave what was there before, so that it is told: returns
 * why, or null. A file system that has no such call for folders keeps names as well as it can.
 */
static const char *settle_name(const struct whole *whole)
{
    static char why[120];
    if (sync_folder(whole) == 0 || errno == EINVAL || errno == ENOTSUP || errno == ENOSYS || errno == EROFS)
        return NULL;
    snprintf(why, sizeof why, "is whole, but may be lost if the power fails: its folder: %s", strerror(errno));
    return why;
}

/* A name is given only to bytes that have arrived, so that a cut at any time leaves the old file or the new one, whole. */
const char *whole_end(struct whole *whole)
{
    bool arrived = has_arrived(whole->file);
    int error = errno;
    sigset_t before = hold_signals();
    bool named = arrived && name_file(whole);
    const char *why = named ? settle_name(whole) : strerror(arrived ? errno : error);
    whole_drop(whole);
    let_signals(before);
    return why;
}

void whole_drop(struct whole *whole)
{
    whole_drop_at_once();
    close(whole->file);
    close_folder(whole);
}
