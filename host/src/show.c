/* show: what is in a keep file. */
#include "kept.h"
#include "output.h"
#include "text.h"

static enum status tell_refusal(const struct request *request, const struct mapping *file, const struct keep_file *keep)
{
    FILE *out = output_beside(request->output);
    uint32_t answer = keep->fields.answer;
    struct asked asked = reading_of(keep);
    if (request->json) {
        struct json json = json_begin(out, "show", answer, whole_meaning_of(answer));
        json_asked(&json, answer, &asked);
        json_string(&json, "file", file->path);
        json_end(&json);
    } else {
        show(out, file->path);
        fputs(": ", out);
        show_asked(out, answer, whole_meaning_of(answer), &asked);
        fputc('\n', out);
    }
    return REFUSED;
}

static void tell(const struct request *request, const struct mapping *file, const struct keep_file *keep,
                 const struct pulled *pulled)
{
    FILE *out = output_beside(request->output);
    if (request->json) {
        struct json json = json_begin(out, "show", HARPTIMBER_DATA, whole_meaning_of(HARPTIMBER_DATA));
        json_string(&json, "file", file->path);
        kept_json(&json, keep);
        json_end(&json);
        return;
    }
    kept_words(out, keep);
    if (request->lists)
        pulled_lists(out, pulled);
    pulled_show(pulled, request);
}

/* The words come last: nothing is said of bytes that couldn't be written. */
static enum status show_and_tell(const struct request *request, const struct mapping *file)
{
    struct keep_file keep = keep_file_of(file->bytes, file->len);
    if (!mapping_is_settled(file))
        return REFUSED;
    if (keep.fields.answer != HARPTIMBER_DATA)
        return tell_refusal(request, file, &keep);
    struct pulled pulled = pulled_kept(&keep);
    if (!pulled_write(&pulled, request, file))
        return REFUSED;
    tell(request, file, &keep, &pulled);
    return request->output == NULL || is_block(pulled.gave.answer) ? DONE : REFUSED;
}

enum status run_show(const struct request *request)
{
    struct mapping file;
    if (!mapping_open(&file, request->words[0], "is the keep file itself"))
        return REFUSED;
    enum status status = show_and_tell(request, &file);
    mapping_close(&file);
    return status;
}
