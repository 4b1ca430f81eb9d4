#include "marks.h"

#include <string.h>

#include "say.h"

/* Deeper than any description, and not so deep that libyaml would take minutes. */
enum { DEPTH_MOST = 16 };

/* Of octets that are no characters libyaml tells the offset alone. */
static unsigned long fault_line(const yaml_parser_t *parser, const struct octets *text)
{
    unsigned long line = 1;
    if (parser->error != YAML_READER_ERROR)
        return parser->problem_mark.line + 1;
    for (size_t i = 0; i < parser->problem_offset && i < text->count; i++)
        line += text->at[i] == '\n';
    return line;
}

static void say_parser_fault(const yaml_parser_t *parser, const char *file, const struct octets *text)
{
    const char *problem = parser->problem == NULL ? "not YAML" : parser->problem;
    const bool colon = strstr(problem, "mapping values are not allowed") != NULL;
    say_error_at(file, fault_line(parser, text), "%s%s", problem, colon ? " (an address that ends in a colon needs quotes)" : "");
}

/* How far the scan of a text has come. */
struct scan {
    unsigned int depth;
    unsigned int documents;
};

/* What speaks against an event, or NULL. */
static const char *objection(struct scan *scan, const yaml_event_t *event)
{
    switch (event->type) {
    case YAML_DOCUMENT_START_EVENT:
        return ++scan->documents > 1 ? "a second document: a description is one" : NULL;
    case YAML_ALIAS_EVENT:
        return "aliases are not used in descriptions";
    case YAML_SEQUENCE_START_EVENT:
    case YAML_MAPPING_START_EVENT:
        return ++scan->depth > DEPTH_MOST ? "lists and keys are nested too deeply" : NULL;
    case YAML_SEQUENCE_END_EVENT:
    case YAML_MAPPING_END_EVENT:
        scan->depth--;
        return NULL;
    case YAML_SCALAR_EVENT: /* C would take it for a shorter one */
        return memchr(event->data.scalar.value, 0, event->data.scalar.length) != NULL ? "a value holds the character NUL" : NULL;
    default:
        return NULL;
    }
}

/* The text event by event, before any of it is kept. */
static bool scan_text(yaml_parser_t *parser, const char *file, const struct octets *text)
{
    struct scan scan = {0, 0};
    for (;;) {
        yaml_event_t event;
        if (!yaml_parser_parse(parser, &event)) {
            say_parser_fault(parser, file, text);
            return false;
        }
        const char *against = objection(&scan, &event);
        const bool ended = event.type == YAML_STREAM_END_EVENT;
        if (against != NULL)
            say_error_at(file, event.start_mark.line + 1, "%s", against);
        yaml_event_delete(&event);
        if (ended || against != NULL)
            return against == NULL;
    }
}

/* libyaml's functions take documents that they do not change as if they did. */
static const yaml_node_t *node_at(const struct marks *marks, int id)
{
    return yaml_document_get_node((yaml_document_t *)&marks->document, id);
}

/* The line of a key that is not one value, or 0. */
static unsigned long strange_key_line(const struct marks *marks)
{
    for (const yaml_node_t *node = marks->document.nodes.start; node < marks->document.nodes.top; node++) {
        if (node->type != YAML_MAPPING_NODE)
            continue;
        for (const yaml_node_pair_t *pair = node->data.mapping.pairs.start; pair < node->data.mapping.pairs.top; pair++)
            if (node_at(marks, pair->key)->type != YAML_SCALAR_NODE)
                return node_at(marks, pair->key)->start_mark.line + 1;
    }
    return 0;
}

static bool load_document(struct marks *marks, yaml_parser_t *parser, const char *file, const struct octets *text)
{
    if (!yaml_parser_load(parser, &marks->document)) {
        say_parser_fault(parser, file, text);
        return false;
    }
    const bool empty = node_at(marks, 1) == NULL;
    const unsigned long line = strange_key_line(marks);
    if (empty)
        say_error_at(file, 0, "no description: the file is empty");
    else if (line != 0)
        say_error_at(file, line, "a key is not one value");
    if (empty || line != 0)
        marks_free(marks);
    return !empty && line == 0;
}

static void begin(yaml_parser_t *parser, const struct octets *text)
{
    if (!yaml_parser_initialize(parser))
        say_no_memory();
    yaml_parser_set_input_string(parser, text->at, text->count);
}

bool marks_read(struct marks *marks, const char *file, const struct octets *text)
{
    yaml_parser_t parser;
    begin(&parser, text);
    bool good = scan_text(&parser, file, text);
    yaml_parser_delete(&parser);
    if (!good)
        return false;
    begin(&parser, text);
    good = load_document(marks, &parser, file, text);
    yaml_parser_delete(&parser);
    return good;
}

void marks_free(struct marks *marks)
{
    yaml_document_delete(&marks->document);
}

static bool is_text(const yaml_node_t *node, const char *text)
{
    return node != NULL && node->type == YAML_SCALAR_NODE && strcmp((const char *)node->data.scalar.value, text) == 0;
}

static const yaml_node_t *value_of(const struct marks *marks, const yaml_node_t *mapping, const char *key)
{
    if (mapping == NULL || mapping->type != YAML_MAPPING_NODE)
        return NULL;
    for (const yaml_node_pair_t *pair = mapping->data.mapping.pairs.start; pair < mapping->data.mapping.pairs.top; pair++)
        if (is_text(node_at(marks, pair->key), key))
            return node_at(marks, pair->value);
    return NULL;
}

static const yaml_node_t *item_of(const struct marks *marks, const yaml_node_t *sequence, unsigned int index)
{
    if (sequence == NULL || sequence->type != YAML_SEQUENCE_NODE ||
        index >= (size_t)(sequence->data.sequence.items.top - sequence->data.sequence.items.start))
        return NULL;
    return node_at(marks, sequence->data.sequence.items.start[index]);
}

unsigned long marks_line(const struct marks *marks, const char *list, unsigned int index, const char *field)
{
    const yaml_node_t *root = node_at(marks, 1);
    const yaml_node_t *record = list == NULL ? root : item_of(marks, value_of(marks, root, list), index);
    const yaml_node_t *value = field == NULL ? NULL : value_of(marks, record, field);
    const yaml_node_t *found = value != NULL ? value : record;
    return found == NULL ? 0 : found->start_mark.line + 1;
}

static bool is_behind(const yaml_mark_t *mark, unsigned long line, unsigned long column)
{
    return mark->line + 1 > line || (mark->line + 1 == line && mark->column + 1 >= column);
}

/* The first key of one mapping; the least line of all mappings is then the first of all. */
static unsigned long key_line_in(const struct marks *marks, const yaml_node_t *mapping, const char *key, unsigned long line,
                                 unsigned long column)
{
    for (const yaml_node_pair_t *pair = mapping->data.mapping.pairs.start; pair < mapping->data.mapping.pairs.top; pair++) {
        const yaml_node_t *node = node_at(marks, pair->key);
        if (is_text(node, key) && is_behind(&node->start_mark, line, column))
            return node->start_mark.line + 1;
    }
    return 0;
}

unsigned long marks_key_line(const struct marks *marks, const char *key, unsigned long line, unsigned long column)
{
    unsigned long first = 0;
    for (const yaml_node_t *node = marks->document.nodes.start; node < marks->document.nodes.top; node++) {
        const unsigned long found = node->type == YAML_MAPPING_NODE ? key_line_in(marks, node, key, line, column) : 0;
        if (found != 0 && (first == 0 || found < first))
            first = found;
    }
    return first;
}
