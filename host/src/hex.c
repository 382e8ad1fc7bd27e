#include "hex.h"

#include <stdbool.h>
#include <string.h>

enum { LINE_BYTES = 16 };

static void show_line(FILE *out, size_t at, const uint8_t *bytes, size_t len)
{
    fprintf(out, "%08zx", at);
    for (size_t i = 0; i < LINE_BYTES; i++) {
        fputs(i % (LINE_BYTES / 2) == 0 ? "  " : " ", out);
        if (i < len)
            fprintf(out, "%02x", (unsigned)bytes[i]);
        else
            fputs("  ", out);
    }
    fputs("  |", out);
    for (size_t i = 0; i < len; i++)
        fputc(bytes[i] >= 0x20 && bytes[i] < 0x7F ? bytes[i] : '.', out);
    fputs("|\n", out);
}

void show_hex(FILE *out, const uint8_t *bytes, size_t len)
{
    bool folded = false;
    for (size_t at = 0; at < len; at += LINE_BYTES) {
        size_t rest = len - at;
        bool repeats = at != 0 && rest >= LINE_BYTES &&
                       memcmp(bytes + at, bytes + at - LINE_BYTES, LINE_BYTES) == 0;
        if (!repeats)
            show_line(out, at, bytes + at, rest < LINE_BYTES ? rest : LINE_BYTES);
        else if (!folded)
            fputs("*\n", out);
        folded = repeats;
    }
    fprintf(out, "%08zx\n", len);
}
