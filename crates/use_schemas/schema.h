/* Checks bodies in JSON by a JSON Schema (draft 2020-12) that is handed over with each, and reports every
 * fault as problem details (RFC 9457).
 *
 * With no schema, which is one of length 0, a body has to be a schema itself: judge each schema this way
 * before you use it. Of one with faults nothing is promised but that each call returns. Where a schema is
 * no JSON text, the status is SCHEMA_WRONG_ARGUMENT, and nothing is handed over.
 *
 * What the caller owes, since nothing checks it:
 * 1. A pointer and its length name memory that is there, and is not NULL, also where the length is 0.
 * 2. `out`, `len` and `checker` overlap neither each other nor `schema`, `body` and `language`, and
 *    nothing else reads or writes them during the call, nor writes `schema`, `body` and `language`.
 * 3. A checker begins with all bytes 0, is used by one thread at a time, is not copied, and is
 *    written by these functions alone.
 * 4. `malloc`, `realloc` and `free` belong together, and no call comes from a signal handler or
 *    from the forked child of a process with threads.
 *
 * No function keeps anything from one call to the next, but for the room that a checker holds, and any
 * number of threads may call at the same time, with one schema too.
 */

#ifndef SCHEMA_H
#define SCHEMA_H

#include <stdbool.h>
#include <stddef.h>
#include <stdint.h>

#ifdef __cplusplus
extern "C" {
#endif

/* The version of the interface that this header describes. */
#define SCHEMA_VERSION 1u

/* There is no fault. */
#define SCHEMA_VALID 0
/* There are faults of form or of the rules. */
#define SCHEMA_FAULTS 1
/* The bytes are no JSON text. */
#define SCHEMA_NO_JSON 2
/* Out of memory. */
#define SCHEMA_MEMORY 3
/* Not even one fault was asked for. */
#define SCHEMA_WRONG_ARGUMENT 4

/* Room that is kept from one call to the next. Begin with SCHEMA_CHECKER_EMPTY, or with all bytes 0. */
typedef struct {
  void *room;
  bool has_room;
  void *schema_room;
  bool has_schema_room;
} schema_checker;

#define SCHEMA_CHECKER_EMPTY {NULL, false, NULL, false}

/* The functions take a schema. */
#define SCHEMA_TAKES_SCHEMA 1

/* `null`. */
#define SCHEMA_NODE_NULL 0
/* `false`. */
#define SCHEMA_NODE_FALSE 1
/* `true`. */
#define SCHEMA_NODE_TRUE 2
/* A whole number of at most 64 bits and no sign: `value` is the number. */
#define SCHEMA_NODE_WHOLE 3
/* A whole number below zero, of at most 64 bits with its sign: `value` is the number without it. */
#define SCHEMA_NODE_NEGATIVE 4
/* Any other number, which has a text. */
#define SCHEMA_NODE_NUMBER 5
/* A text, or the name of a member. */
#define SCHEMA_NODE_TEXT 6
/* A list: `value` says how many items follow. */
#define SCHEMA_NODE_LIST 7
/* An object: `value` says how many members follow, each a name and a value. */
#define SCHEMA_NODE_OBJECT 8
/* A node of a JSON value. The nodes of a value are in the order of its text, so that what is in a list
 * or in an object comes right behind it.
 */
typedef struct {
  /* What begins here. */
  uint8_t kind;
  /* Of a text: whether it lies in `texts`, and not in the body. */
  bool in_texts;
  /* Of a text: so many bytes. */
  uint32_t len;
  /* Of a text: where it begins. Else see the kind. */
  uint64_t value;
} schema_node;

/* Where a fault is in a body: of an unknown or a repeated member its name, and else its value. A byte
 * order mark is not counted.
 */
typedef struct {
  /* The line, from 1 on. */
  uint64_t line;
  /* The column, in characters from 1 on. */
  uint64_t column;
} schema_place;

/* The version of this interface: SCHEMA_VERSION, where the header belongs to the library. */
uint32_t schema_version(void);

/* Checks the bytes of a body, and returns a status. `out` gets the problem details of what is wrong, as
 * UTF-8 with no 0 at the end, cut where it ends; the rest of it stays as it was. `len` gets the length of
 * the details as a whole: where it is greater than `out_len`, call again with more room. Of SCHEMA_VALID,
 * SCHEMA_MEMORY and SCHEMA_WRONG_ARGUMENT there are no details, and `len` is 0.
 *
 * The details have `most` faults at most (SIZE_MAX: all), in the order of the schema. Where there are
 * more, their member `detail` is "there are more". Sentences are in the language of the tag `language`, as
 * "de", of 18, and English of any other and of none.
 */
uint8_t schema_check(const uint8_t *schema,
                     size_t schema_len,
                     const uint8_t *body,
                     size_t body_len,
                     size_t most,
                     const uint8_t *language,
                     size_t language_len,
                     uint8_t *out,
                     size_t out_len,
                     size_t *len);

/* Returns the status of the bytes of a body, and no details: SCHEMA_VALID, SCHEMA_FAULTS, SCHEMA_NO_JSON,
 * SCHEMA_MEMORY, or SCHEMA_WRONG_ARGUMENT. Reading ends at the first fault.
 */
uint8_t schema_is_valid(const uint8_t *schema,
                        size_t schema_len,
                        const uint8_t *body,
                        size_t body_len);

/* Makes the room of a checker for bodies of `body_len` bytes, and returns SCHEMA_VALID or SCHEMA_MEMORY. A
 * call may be left out: `schema_check_with` makes the room that it lacks.
 */
uint8_t schema_reserve(schema_checker *checker, uint32_t body_len);

/* Does what `schema_check` does, in the room of a checker, which is kept for the next call. The answer does
 * not depend on what was checked before, nor by which schema.
 */
uint8_t schema_check_with(schema_checker *checker,
                          const uint8_t *schema,
                          size_t schema_len,
                          const uint8_t *body,
                          size_t body_len,
                          size_t most,
                          const uint8_t *language,
                          size_t language_len,
                          uint8_t *out,
                          size_t out_len,
                          size_t *len);

/* Does what `schema_check_with` does, and reports what is wrong in lines: `out` gets a line
 * `path: message` for each fault, without codes, and the line `there are more` where there are. Of bytes
 * that are no JSON text the line says why, with line and column. It takes less time than problem details.
 * The name of an unknown member stands in its line as the body has it, a line feed or a code of a
 * terminal too: escape it before you show it.
 */
uint8_t schema_list_with(schema_checker *checker,
                         const uint8_t *schema,
                         size_t schema_len,
                         const uint8_t *body,
                         size_t body_len,
                         size_t most,
                         const uint8_t *language,
                         size_t language_len,
                         uint8_t *out,
                         size_t out_len,
                         size_t *len);

/* Returns what `schema_is_valid` returns, and of SCHEMA_VALID hands over the JSON value that was judged: its
 * nodes, in the order of the text, and in `texts` those of its texts that the body has with an escape. A
 * text lies in `body` or in `texts`, as its node says.
 *
 * `nodes` and `texts` get as much as they have room for, and `nodes_used` and `texts_used` say how much it
 * is as a whole: where that is more, call again with more room. Of any other status both are 0.
 */
uint8_t schema_value_with(schema_checker *checker,
                          const uint8_t *schema,
                          size_t schema_len,
                          const uint8_t *body,
                          size_t body_len,
                          schema_node *nodes,
                          size_t nodes_len,
                          size_t *nodes_used,
                          uint8_t *texts,
                          size_t texts_len,
                          size_t *texts_used);

/* Does what `schema_check_with` does, and hands over the details as nodes too, as `schema_value_with` does:
 * their texts lie in `texts`. The value is an object. Its last member is `errors`, a list with an object for
 * each fault: `pointer`, `detail`, `code` and `params`, in this order.
 *
 * Give `out_len` 0 if you do not ask for the details as text: then they are not written, and `len` is 0. Where
 * there are no details, `nodes_used` and `texts_used` are 0.
 *
 * Of SCHEMA_FAULTS `places` gets where in the body each fault is, in the order of `errors`, as far as it has
 * room, and `places_used` says how many faults there are. Give `places_len` 0 if you do not ask: then
 * nothing is looked for, and `places_used` is 0.
 */
uint8_t schema_faults_with(schema_checker *checker,
                           const uint8_t *schema,
                           size_t schema_len,
                           const uint8_t *body,
                           size_t body_len,
                           size_t most,
                           const uint8_t *language,
                           size_t language_len,
                           uint8_t *out,
                           size_t out_len,
                           size_t *len,
                           schema_node *nodes,
                           size_t nodes_len,
                           size_t *nodes_used,
                           uint8_t *texts,
                           size_t texts_len,
                           size_t *texts_used,
                           schema_place *places,
                           size_t places_len,
                           size_t *places_used);

/* Frees the room of a checker, and leaves it as it began. A second call does nothing. */
void schema_free(schema_checker *checker);

#ifdef __cplusplus
}
#endif

#endif
