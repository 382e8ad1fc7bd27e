#include "path.h"

#include <string.h>

#include "harptimber.h"
#include "text.h"

size_t path_next(size_t len)
{
    return len == 0 ? 0 : len + 1;
}

size_t path_name_end(const char *path, size_t len, size_t at)
{
    const char *slash = memchr(path + at, '/', len - at);
    return slash == NULL ? len : (size_t)(slash - path);
}

static bool has_byte(const char *name, size_t len, char byte)
{
    return memchr(name, byte, len) != NULL;
}

bool is_name(const char *name, size_t len)
{
    return harptimber_name_hash((const uint8_t *)name, len).answer != HARPTIMBER_OUT_OF_SHAPE;
}

static void show_too_many(FILE *out, const char *called, size_t count, const char *unit, int most)
{
    fprintf(out, "%s has ", called);
    show_count(out, count, unit);
    fprintf(out, "; at most %d are possible", most);
}

/* What else than its length is wrong with a name; null if nothing is. */
static const char *fault_in(const char *name, size_t len)
{
    if (len == 0)
        return "is empty";
    if (has_byte(name, len, '/'))
        return "has a slash";
    return has_byte(name, len, '\0') ? "has a zero byte" : NULL;
}

static void show_fault_of(FILE *out, const char *called, const char *name, size_t len)
{
    const char *fault = fault_in(name, len);
    if (len > HARPTIMBER_NAME_BYTES_MOST)
        show_too_many(out, called, len, "byte", HARPTIMBER_NAME_BYTES_MOST);
    else if (fault != NULL)
        fprintf(out, "%s %s", called, fault);
}

void show_name_fault(FILE *out, const char *name, size_t len)
{
    show_fault_of(out, "the name", name, len);
}

/* The first of several names that isn't one. */
static void show_bad_name(FILE *out, const char *path, size_t len)
{
    char called[sizeof "name 8 of the path" + 10];
    size_t at = 0, end = path_name_end(path, len, at);
    int which = 1;
    for (; end < len && is_name(path + at, end - at); which++) {
        at = path_next(end);
        end = path_name_end(path, len, at);
    }
    snprintf(called, sizeof called, "name %d of the path", which);
    show_fault_of(out, called, path + at, end - at);
}

/* Which slash is one too many, in words; null if none is. */
static const char *bad_slash(const char *path, size_t len)
{
    if (path[0] == '/')
        return "starts with a slash; a path is taken from the root directory on";
    if (path[len - 1] == '/')
        return "ends with a slash";
    for (size_t i = 1; i < len; i++)
        if (path[i - 1] == '/' && path[i] == '/')
            return "has two slashes side by side";
    return NULL;
}

static size_t count_names(const char *path, size_t len)
{
    size_t count = 1;
    for (size_t i = 0; i < len; i++)
        count += path[i] == '/';
    return count;
}

void show_path_fault(FILE *out, const char *path, size_t len)
{
    const char *slash = len == 0 ? NULL : bad_slash(path, len);
    size_t names = count_names(path, len);
    if (len == 0)
        fputs("the path is empty", out);
    else if (slash != NULL)
        fprintf(out, "the path %s", slash);
    else if (names > HARPTIMBER_NAMES_MOST)
        show_too_many(out, "the path", names, "name", HARPTIMBER_NAMES_MOST);
    else
        (names == 1 ? show_name_fault : show_bad_name)(out, path, len);
}
