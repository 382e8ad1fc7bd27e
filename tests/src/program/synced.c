/*
 * Loaded into the program before its other libraries: notes in the file SYNCED_IN, in their order, when a file, a folder or a whole
 * file system is put on the disk, and when a file is given a name. What SYNCED_FAILS names fails to get there, with the error
 * SYNCED_ERROR.
 */
#define _GNU_SOURCE
#include <dlfcn.h>
#include <errno.h>
#include <fcntl.h>
#include <stdlib.h>
#include <string.h>
#include <sys/stat.h>
#include <unistd.h>

static void note(const char *what)
{
    int file = open(getenv("SYNCED_IN"), O_WRONLY | O_APPEND | O_CREAT | O_CLOEXEC, 0666);
    ssize_t written = write(file, what, strlen(what));
    (void)written;
    close(file);
}

/* Notes it, and does it by the library's own function of this name, unless it is to fail. */
static int sync_by(const char *function, int file, const char *what)
{
    const char *fails = getenv("SYNCED_FAILS");
    int (*next)(int);
    *(void **)&next = dlsym(RTLD_NEXT, function);
    note(what);
    note(" synced\n");
    if (fails == NULL || strcmp(fails, what) != 0)
        return next(file);
    errno = atoi(getenv("SYNCED_ERROR"));
    return -1;
}

int fsync(int file)
{
    struct stat info;
    int is_folder = fstat(file, &info) == 0 && S_ISDIR(info.st_mode);
    return sync_by("fsync", file, is_folder ? "folder" : "file");
}

int syncfs(int file)
{
    return sync_by("syncfs", file, "file system");
}

int linkat(int from_folder, const char *from, int folder, const char *name, int flags)
{
    int (*next)(int, const char *, int, const char *, int);
    *(void **)&next = dlsym(RTLD_NEXT, "linkat");
    int status = next(from_folder, from, folder, name, flags);
    int error = errno;
    if (status == 0)
        note("named\n");
    errno = error;
    return status;
}

int renameat(int from_folder, const char *from, int folder, const char *name)
{
    int (*next)(int, const char *, int, const char *);
    *(void **)&next = dlsym(RTLD_NEXT, "renameat");
    note("renamed\n");
    return next(from_folder, from, folder, name);
}
