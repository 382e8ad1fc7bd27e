#include "output.h"

#include <errno.h>
#include <fcntl.h>
#include <string.h>
#include <unistd.h>

#include "text.h"

bool output_is_standard(const char *word)
{
    return word == NULL || strcmp(word, "-") == 0;
}

/* Whether an open file is this one: the same file, pipe or device, by whatever name. */
static bool is_open_as(int file, const struct stat *info)
{
    struct stat open;
    return fstat(file, &open) == 0 && open.st_dev == info->st_dev && open.st_ino == info->st_ino;
}

/* A file that standard output goes to isn't replaced, so that its name leads to it also once the bytes are there. */
FILE *output_beside(const char *word)
{
    struct stat info;
    if (word == NULL)
        return stdout;
    bool mixed = output_is_standard(word) || (stat(word, &info) == 0 && is_open_as(STDOUT_FILENO, &info));
    return mixed ? stderr : stdout;
}

/* Why an open file can't be the output; null if it can. */
static const char *judge(const struct mapping *read, const struct stat *info)
{
    if (mapping_is(read, info))
        return read->itself;
    return S_ISBLK(info->st_mode) ? "is a block device" : NULL; /* which may hold the card */
}

/* Whether a file is standard output or error, as /dev/stdout may be. What goes there would be lost if it were replaced. */
static bool has_words(const struct stat *info)
{
    return is_open_as(STDOUT_FILENO, info) || is_open_as(STDERR_FILENO, info);
}

/* Makes a file ready that is seen once it is whole. `old` is the one that it replaces, or null. Returns why not. */
static const char *make(struct output *output, const struct stat *old)
{
    output->waits = true;
    const char *why = whole_begin(&output->whole, output->path, old);
    output->file = why == NULL ? output->whole.file : -1;
    return why;
}

/* Makes the open file ready, or one that is to replace it. Returns why not, or null. */
static const char *prepare(struct output *output, const struct mapping *read)
{
    struct stat info;
    if (fstat(output->file, &info) != 0)
        return strerror(errno);
    const char *why = judge(read, &info);
    if (why != NULL || output->file == STDOUT_FILENO || !S_ISREG(info.st_mode))
        return why;
    if (has_words(&info))
        return ftruncate(output->file, 0) == 0 ? NULL : strerror(errno);
    close(output->file);
    return make(output, &info);
}

bool output_open(struct output *output, const char *word, const struct mapping *read)
{
    bool standard = output_is_standard(word);
    *output = (struct output){.path = standard ? "standard output" : word, .file = STDOUT_FILENO};
    if (!standard)
        output->file = open(word, O_WRONLY | O_NOCTTY | O_CLOEXEC);
    const char *why;
    if (output->file >= 0)
        why = prepare(output, read);
    else
        why = errno == ENOENT ? make(output, NULL) : strerror(errno);
    if (why == NULL)
        return true;
    complain(output->path, "%s", why);
    if (output->file >= 0 && !standard)
        close(output->file);
    return false;
}

bool output_write(const struct output *output, const uint8_t *bytes, size_t len)
{
    while (len != 0) {
        ssize_t written = write(output->file, bytes, len);
        if (written < 0 && errno == EINTR)
            continue;
        if (written < 0) {
            complain(output->path, "%s", strerror(errno));
            return false;
        }
        bytes += written;
        len -= (size_t)written;
    }
    return true;
}

/* Standard output is closed at the program's end. */
bool output_close(struct output *output)
{
    const char *why = NULL;
    if (output->waits)
        why = whole_end(&output->whole);
    else if (output->file != STDOUT_FILENO && close(output->file) != 0)
        why = strerror(errno);
    if (why != NULL)
        complain(output->path, "%s", why);
    return why == NULL;
}

void output_drop(struct output *output)
{
    if (output->waits)
        whole_drop(&output->whole);
    else
        output_close(output);
}

bool output_all(const char *word, const struct mapping *read, const uint8_t *bytes, size_t len)
{
    struct output output;
    if (!output_open(&output, word, read))
        return false;
    if (output_write(&output, bytes, len))
        return output_close(&output);
    output_drop(&output);
    return false;
}
