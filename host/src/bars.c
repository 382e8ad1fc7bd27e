#define _GNU_SOURCE /* newlocale */
#include "bars.h"

#include <langinfo.h>
#include <locale.h>
#include <string.h>
#include <sys/ioctl.h>

#include "disk.h"
#include "text.h"

/* A bar's height, if neither 0 nor this, is of segments that are neither empty nor full. */
enum { FULL = 8 };

/* Brackets around the bars show how far empty ones go. */
enum { BRACKETS = 2, USUAL_WIDTH = 80 };

/* Whether the locale that the environment names is one of UTF-8. */
static bool is_utf8(void)
{
    locale_t locale = newlocale(LC_CTYPE_MASK, "", (locale_t)0);
    if (locale == (locale_t)0)
        return false;
    bool utf8 = strcmp(nl_langinfo_l(CODESET, locale), "UTF-8") == 0;
    freelocale(locale);
    return utf8;
}

uint32_t terminal_width(int file)
{
    struct winsize size;
    bool known = ioctl(file, TIOCGWINSZ, &size) == 0 && size.ws_col > BRACKETS;
    return known ? size.ws_col : USUAL_WIDTH;
}

/* U+2581 to U+2588 are one to eight eighths of a block. */
static void show_bar(FILE *out, int height, bool utf8)
{
    if (utf8 && height != 0)
        fprintf(out, "\xE2\x96%c", 0x80 + height);
    else
        fputc(" .:-=+*%#"[height], out);
}

/* How high the bar of segments `first` to `end` - 1 is. A card's blocks, even eight times as many, are a number of 32 bits. */
static int height_of(const struct sit *sit, uint32_t first, uint32_t end)
{
    uint32_t valid = 0, all = (end - first) * DISK_SEGMENT_BLOCKS;
    for (uint32_t i = first; i < end; i++)
        valid += sit->entries[i].ones;
    if (valid == 0 || valid == all)
        return valid == 0 ? 0 : FULL;
    return (int)(1 + valid * (FULL - 1) / all);
}

void show_bars(FILE *out, const struct sit *sit, uint32_t width)
{
    bool utf8 = is_utf8();
    uint32_t room = width - BRACKETS, step = (sit->segments + room - 1) / room;
    fputs("a column is ", out);
    show_count(out, step, "segment");
    fputs(", blank if empty, ", out);
    show_bar(out, FULL, utf8);
    fputs(" if full\n[", out);
    for (uint32_t first = 0; first < sit->segments; first += step) {
        uint32_t end = first + step < sit->segments ? first + step : sit->segments;
        show_bar(out, height_of(sit, first, end), utf8);
    }
    fputs("]\n", out);
}
