/* A strict reader of JSON: no more after the value, no comments, no nesting beyond DEPTH. */
#include "json.h"

#include <stdint.h>
#include <stdlib.h>
#include <string.h>

#define DEPTH 64

typedef struct reader {
    const char *at, *end;
    int depth;
} reader;

static bool read_value(reader *in, json *value);

void json_free(json *value) {
    for (size_t at = 0; at < value->count; at++) {
        json_free(&value->items[at]);
        if (value->names) json_free(&value->names[at]);
    }
    free(value->items);
    free(value->names);
    free(value->text);
    *value = (json){JSON_NULL, NULL, 0, NULL, NULL, 0};
}

static void skip(reader *in) {
    while (in->at < in->end && *in->at && strchr(" \t\r\n", *in->at)) in->at++;
}

static bool takes(reader *in, const char *word) {
    size_t length = strlen(word);
    if ((size_t)(in->end - in->at) < length || memcmp(in->at, word, length)) return false;
    in->at += length;
    return true;
}

static bool is_digit(const reader *in) {
    return in->at < in->end && *in->at >= '0' && *in->at <= '9';
}

static bool digits(reader *in) {
    if (!is_digit(in)) return false;
    while (is_digit(in)) in->at++;
    return true;
}

static bool keep(json *value, enum json_kind kind, const char *from, size_t length) {
    value->kind = kind;
    value->text = malloc(length + 1);
    if (!value->text) return false;
    memcpy(value->text, from, length);
    value->text[length] = 0;
    value->length = length;
    return true;
}

static bool read_number(reader *in, json *value) {
    const char *from = in->at;
    takes(in, "-");
    if (!takes(in, "0") && !digits(in)) return false;
    if (takes(in, ".") && !digits(in)) return false;
    if (takes(in, "e") || takes(in, "E")) {
        if (!takes(in, "+")) takes(in, "-");
        if (!digits(in)) return false;
    }
    return keep(value, JSON_NUMBER, from, (size_t)(in->at - from));
}

/* Four digits of base 16. */
static bool read_unit(reader *in, uint32_t *unit) {
    static const char hex[] = "0123456789abcdef0123456789ABCDEF";
    if (in->end - in->at < 4) return false;
    *unit = 0;
    for (int place = 0; place < 4; place++, in->at++) {
        const char *digit = *in->at ? strchr(hex, *in->at) : NULL;
        if (!digit) return false;
        *unit = *unit << 4 | (uint32_t)((digit - hex) & 15);
    }
    return true;
}

/* A character of an escape \u, with the second half of a pair. A half alone is none. */
static bool read_escaped(reader *in, uint32_t *character) {
    uint32_t low;
    if (!read_unit(in, character)) return false;
    if (*character < 0xd800 || *character > 0xdfff) return true;
    if (*character > 0xdbff || !takes(in, "\\u") || !read_unit(in, &low)) return false;
    if (low < 0xdc00 || low > 0xdfff) return false;
    *character = 0x10000 + ((*character - 0xd800) << 10) + (low - 0xdc00);
    return true;
}

static char *encoded(char *to, uint32_t character) {
    if (character < 0x80) {
        *to++ = (char)character;
        return to;
    }
    int more = character < 0x800 ? 1 : character < 0x10000 ? 2 : 3;
    static const uint8_t head[] = {0, 0xc0, 0xe0, 0xf0};
    *to++ = (char)(head[more] | character >> 6 * more);
    while (more--) *to++ = (char)(0x80 | (character >> 6 * more & 0x3f));
    return to;
}

static bool read_escape(reader *in, char **to) {
    static const char marks[] = "\"\\/bfnrt", means[] = "\"\\/\b\f\n\r\t";
    if (in->at == in->end) return false;
    const char *mark = *in->at ? strchr(marks, *in->at) : NULL;
    uint32_t character;
    if (mark) {
        in->at++;
        *(*to)++ = means[mark - marks];
        return true;
    }
    if (!takes(in, "u") || !read_escaped(in, &character)) return false;
    *to = encoded(*to, character);
    return true;
}

/* The bytes of a string go over what they were read from: an escape is longer than its character.
 */
static bool read_string(reader *in, json *value) {
    if (!takes(in, "\"")) return false;
    const char *from = in->at;
    char *made = malloc((size_t)(in->end - from) + 1), *to = made;
    bool is_right = made != NULL;
    while (is_right && in->at < in->end && *in->at != '"') {
        unsigned char next = (unsigned char)*in->at++;
        if (next == '\\')
            is_right = read_escape(in, &to);
        else if (next < 0x20)
            is_right = false;
        else
            *to++ = (char)next;
    }
    is_right = is_right && takes(in, "\"") && keep(value, JSON_STRING, made, (size_t)(to - made));
    free(made);
    return is_right;
}

static bool grown(json **rows, size_t count) {
    if (count & (count - 1)) return true; /* there is room up to the next power of two */
    json *more = realloc(*rows, (count ? 2 * count : 1) * sizeof *more);
    if (more) *rows = more;
    return more != NULL;
}

static bool read_name(reader *in, json *value) {
    skip(in);
    value->names[value->count] = (json){JSON_NULL, NULL, 0, NULL, NULL, 0};
    if (!read_string(in, &value->names[value->count])) return false;
    skip(in);
    return takes(in, ":");
}

static bool read_item(reader *in, json *value) {
    if (!grown(&value->items, value->count)) return false;
    if (value->kind == JSON_OBJECT) {
        if (!grown(&value->names, value->count)) return false;
        if (!read_name(in, value)) {
            json_free(&value->names[value->count]);
            return false;
        }
    }
    json *item = &value->items[value->count++];
    *item = (json){JSON_NULL, NULL, 0, NULL, NULL, 0};
    return read_value(in, item);
}

static bool read_items(reader *in, json *value, const char *end) {
    skip(in);
    if (takes(in, end)) return true;
    do {
        if (!read_item(in, value)) return false;
        skip(in);
    } while (takes(in, ","));
    return takes(in, end);
}

static bool read_nested(reader *in, json *value, enum json_kind kind, const char *end) {
    value->kind = kind;
    if (in->depth == DEPTH) return false;
    in->depth++;
    bool is_right = read_items(in, value, end);
    in->depth--;
    return is_right;
}

static bool read_value(reader *in, json *value) {
    skip(in);
    if (takes(in, "null")) return true;
    if (takes(in, "{")) return read_nested(in, value, JSON_OBJECT, "}");
    if (takes(in, "[")) return read_nested(in, value, JSON_LIST, "]");
    if (takes(in, "true")) return value->kind = JSON_TRUE, true;
    if (takes(in, "false")) return value->kind = JSON_FALSE, true;
    if (in->at < in->end && *in->at == '"') return read_string(in, value);
    return read_number(in, value);
}

bool json_read(const char *text, size_t length, json *value) {
    reader in = {text, text + length, 0};
    *value = (json){JSON_NULL, NULL, 0, NULL, NULL, 0};
    bool is_right = read_value(&in, value);
    skip(&in);
    if (is_right && in.at == in.end) return true;
    json_free(value);
    return false;
}

const json *json_get(const json *object, const char *name) {
    if (!object || object->kind != JSON_OBJECT) return NULL;
    for (size_t at = object->count; at-- > 0;)
        if (json_is(&object->names[at], name)) return &object->items[at];
    return NULL;
}

bool json_is(const json *value, const char *text) {
    return value && value->kind == JSON_STRING && value->length == strlen(text) &&
        !memcmp(value->text, text, value->length);
}
