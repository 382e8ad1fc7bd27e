#include "text.h"

#include <inttypes.h>
#include <stdarg.h>
#include <string.h>

#include "harptimber.h"

size_t utf8_read(const char *text, size_t text_len, uint32_t *character)
{
    /* For each number of bytes: how the first one looks, and the lowest character that needs so many. */
    static const struct {
        uint8_t mask, bits;
        uint32_t lowest;
    } forms[] = {{0x80, 0x00, 0}, {0xE0, 0xC0, 0x80}, {0xF0, 0xE0, 0x800}, {0xF8, 0xF0, 0x10000}};
    uint8_t lead = (uint8_t)text[0];
    size_t len = 1;
    while (len <= 4 && (lead & forms[len - 1].mask) != forms[len - 1].bits)
        len++;
    if (len > 4 || len > text_len)
        return 0;
    uint32_t value = lead & (uint8_t)~forms[len - 1].mask;
    for (size_t i = 1; i < len; i++) {
        uint8_t next = (uint8_t)text[i];
        if ((next & 0xC0) != 0x80)
            return 0;
        value = value << 6 | (next & 0x3F);
    }
    if (value < forms[len - 1].lowest || value > 0x10FFFF || (value >= 0xD800 && value <= 0xDFFF))
        return 0;
    *character = value;
    return len;
}

bool is_control(uint32_t character)
{
    return character < 0x20 || (character >= 0x7F && character <= 0x9F);
}

/* Prints a character of so many bytes; 0 if they aren't UTF-8. Returns how many bytes that makes. */
static size_t show_character(FILE *out, const char *text, size_t len, uint32_t character)
{
    if (len != 0 && !is_control(character)) {
        if (character == '\\')
            fputc('\\', out);
        fwrite(text, 1, len, out);
        return len + (character == '\\');
    }
    size_t count = len == 0 ? 1 : len;
    for (size_t i = 0; i < count; i++)
        fprintf(out, "\\x%02X", (unsigned)(uint8_t)text[i]);
    return count * strlen("\\xNN");
}

static size_t show_all(FILE *out, const char *text, size_t len)
{
    size_t printed = 0;
    if (len == 0) {
        fputs("''", out);
        printed = strlen("''");
    }
    for (size_t at = 0; at < len;) {
        uint32_t character = 0;
        size_t bytes = utf8_read(text + at, len - at, &character);
        printed += show_character(out, text + at, bytes, character);
        at += bytes == 0 ? 1 : bytes;
    }
    return printed;
}

size_t show(FILE *out, const char *text)
{
    return show_all(out, text, strlen(text));
}

void show_bytes(FILE *out, const char *text, size_t len)
{
    size_t shown = len < HARPTIMBER_PATH_BYTES_MOST ? len : HARPTIMBER_PATH_BYTES_MOST;
    show_all(out, text, shown);
    if (shown == len)
        return;
    fputs(" and ", out);
    show_count(out, len - shown, "more byte");
}

const char *number_text(char room[NUMBER_ROOM], uint64_t number)
{
    char *at = room + NUMBER_ROOM - 1;
    *at = '\0';
    for (int digits = 0; digits == 0 || number != 0; digits++, number /= 10) {
        if (digits != 0 && digits % 3 == 0)
            *--at = ',';
        *--at = (char)('0' + number % 10);
    }
    return at;
}

int show_number(FILE *out, uint64_t number)
{
    char room[NUMBER_ROOM];
    return fprintf(out, "%s", number_text(room, number));
}

void show_padded(FILE *out, uint64_t number, int width)
{
    char room[NUMBER_ROOM];
    fprintf(out, "%*s", width, number_text(room, number));
}

void show_count(FILE *out, uint64_t count, const char *thing)
{
    show_number(out, count);
    fprintf(out, " %s%s", thing, count == 1 ? "" : "s");
}

void show_size(FILE *out, uint64_t bytes)
{
    static const char *const units[] = {"KiB", "MiB", "GiB", "TiB"};
    int power = 0;
    while (power < 4 && bytes >> 10 * (power + 1) != 0)
        power++;
    if (power == 0) {
        show_count(out, bytes, "byte");
        return;
    }
    uint64_t whole = bytes >> 10 * power, rest = bytes & (((uint64_t)1 << 10 * power) - 1);
    uint64_t tenths = rest * 10 >> 10 * power;
    show_number(out, whole);
    if (tenths != 0)
        fprintf(out, ".%" PRIu64, tenths);
    fprintf(out, " %s", units[power - 1]);
}

void show_subject(FILE *out, const char *subject)
{
    fputs("harptimber: ", out);
    show(out, subject);
    fputs(": ", out);
}

void complain(const char *subject, const char *format, ...)
{
    va_list arguments;
    va_start(arguments, format);
    show_subject(stderr, subject);
    vfprintf(stderr, format, arguments);
    fputc('\n', stderr);
    va_end(arguments);
}
