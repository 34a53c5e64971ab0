/* What the kit writes and reads as JSON, as values of the client. */
#ifndef TB_VALUES_H
#define TB_VALUES_H

#include "../src/internal.h"
#include "../src/json.h"

/* Why a line has no answer by the client: a value that C's types cannot hold, or what this runner
 * does not know. Each thread has its own. */
extern _Thread_local const char *never, *unknown;

/* Each reads a value, or sets `never` or `unknown`. */
tb_u128 integer_of(const json *given, unsigned bits);
int64_t nanoseconds_of(const json *given);
int int_of(const json *given);
enum tb_operation operation_of(const json *given);
const char *text_of(const json *given); /* "" of another value */

/* Items of an operation. */
typedef struct items {
    void *rows;
    size_t count;
} items;

/* The items of a line. Free `rows`. */
items items_of(const json *line, enum tb_operation operation);

/* Writes a value that the client returned. */
void write_text(FILE *out, const char *text);
void write_number(FILE *out, tb_u128 number); /* as text */
void write_answer(FILE *out, const tb_answer *answer);
void write_results(FILE *out, const tb_answer *answer);
void write_saved(FILE *out, const tb_saved *saved);
void write_request(FILE *out, const tb_request *request); /* the one in doubt */
void write_error(FILE *out, const tb_client_error *error, const tb_answer *answer);

#endif
