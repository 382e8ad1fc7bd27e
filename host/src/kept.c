#include "kept.h"

#include "reason.h"
#include "text.h"

void kept_words(FILE *out, const struct keep_file *keep)
{
    struct pulled pulled = pulled_kept(keep);
    pulled_words(out, &pulled);
    fputs("keep file of ", out);
    show_count(out, keep->len, "byte");
    fputs("; ", out);
    show_main_area(out, &pulled.source);
    fputc('\n', out);
}

void kept_json(struct json *json, const struct keep_file *keep)
{
    struct pulled pulled = pulled_kept(keep);
    struct asked asked = pulled_asked(&pulled);
    json_number(json, "pull_answer", pulled.gave.answer);
    json_string(json, "pull_meaning", harptimber_answer_words(pulled.gave.answer));
    json_asked_as(json, "pull_reason", pulled.gave.answer, &asked);
    json_number(json, "length", keep->len);
    json_number(json, "main_start", keep->fields.main_start);
    json_number(json, "main_end", keep->fields.main_end);
    pulled_json(json, &pulled);
}
