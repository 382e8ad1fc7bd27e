#include "pulled.h"

#include <inttypes.h>
#include <unistd.h>

#include "hex.h"
#include "output.h"
#include "text.h"

struct pulled pulled_from(const struct card *card, const char *path, size_t path_len, uint32_t index, uint8_t *block,
                          struct lists *lists)
{
    struct harptimber_pulled gave = card_pull(card, path, path_len, index, block, lists);
    return (struct pulled){
        .source = source_of_card(card),
        .path = path,
        .path_len = path_len,
        .index = index,
        .gave = gave,
        .block = block,
        .nodes = {lists->nodes, 4, gave.node_count},
        .blocks = {lists->blocks, 4, gave.block_count},
    };
}

struct pulled pulled_kept(const struct keep_file *keep)
{
    return (struct pulled){
        .source = source_of_keep(keep),
        .path = keep_file_path(keep),
        .path_len = keep->fields.path_len,
        .index = keep->fields.index,
        .gave = keep_file_pulled(keep),
        .block = keep_file_block(keep),
        .nodes = keep_file_nodes(keep),
        .blocks = keep_file_blocks(keep),
    };
}

struct asked pulled_asked(const struct pulled *pulled)
{
    return pull_of(pulled->source, pulled->path, pulled->path_len, pulled->index);
}

void pulled_words(FILE *out, const struct pulled *pulled)
{
    uint32_t answer = pulled->gave.answer;
    struct asked asked = pulled_asked(pulled);
    show_bytes(out, pulled->path, pulled->path_len);
    fprintf(out, ", block %" PRIu32 ": ", pulled->index);
    show_asked(out, answer, harptimber_answer_words(answer), &asked);
    if (is_block(answer)) {
        fputs(", ", out);
        show_count(out, pulled->gave.byte_count, "byte");
    }
    fputc('\n', out);
    if (pulled->nodes.count == 0)
        return;
    fputs("rests on ", out);
    show_count(out, pulled->nodes.count, "node");
    fputs(" and ", out);
    show_count(out, pulled->blocks.count, "block");
    fputc('\n', out);
}

static void show_list(FILE *out, const char *what, const struct list *list)
{
    fprintf(out, "%s:", what);
    for (uint32_t i = 0; i < list->count; i++)
        fprintf(out, " %" PRIu32, list_number(list, i));
    fputc('\n', out);
}

void pulled_lists(FILE *out, const struct pulled *pulled)
{
    if (pulled->nodes.count == 0)
        return;
    show_list(out, "nodes", &pulled->nodes);
    show_list(out, "blocks", &pulled->blocks);
}

static void json_list(struct json *json, const char *key, const struct list *list)
{
    json_open(json, key, '[');
    for (uint32_t i = 0; i < list->count; i++)
        json_number(json, NULL, list_number(list, i));
    json_close(json, ']');
}

void pulled_json(struct json *json, const struct pulled *pulled)
{
    json_name_bytes(json, pulled->path, pulled->path_len);
    json_number(json, "index", pulled->index);
    json_number(json, "byte_count", pulled->gave.byte_count);
    json_list(json, "nodes", &pulled->nodes);
    json_list(json, "blocks", &pulled->blocks);
}

uint32_t pulled_len(const struct pulled *pulled)
{
    return pulled->gave.byte_count < BLOCK_SIZE ? pulled->gave.byte_count : BLOCK_SIZE;
}

bool pulled_write(const struct pulled *pulled, const struct request *request, const struct mapping *read)
{
    return request->output == NULL || !is_block(pulled->gave.answer) ||
           output_all(request->output, read, pulled->block, pulled_len(pulled));
}

void pulled_show(const struct pulled *pulled, const struct request *request)
{
    bool wanted = request->output == NULL && !request->json && isatty(STDOUT_FILENO);
    if (wanted && pulled->gave.answer == HARPTIMBER_DATA)
        show_hex(stdout, pulled->block, pulled_len(pulled));
}
