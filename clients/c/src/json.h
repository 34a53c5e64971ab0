/* Values of JSON, read whole. */
#ifndef TB_JSON_H
#define TB_JSON_H

#include <stdbool.h>
#include <stddef.h>

enum json_kind {
    JSON_NULL,
    JSON_FALSE,
    JSON_TRUE,
    JSON_NUMBER,
    JSON_STRING,
    JSON_LIST,
    JSON_OBJECT
};

typedef struct json {
    enum json_kind kind;
    char *text; /* of a number its digits, of a string its bytes in UTF-8 */
    size_t length;
    struct json *items; /* of a list or an object */
    struct json *names; /* of an object, for each item a string */
    size_t count;
} json;

/* Reads a text that is one value. Whether it is one, and there was memory. */
bool json_read(const char *text, size_t length, json *value);
void json_free(json *value);
/* The last item of an object with this name, or null. */
const json *json_get(const json *object, const char *name);
/* Whether a value is this string. */
bool json_is(const json *value, const char *text);

#endif
