/* Checks orders in JSON, and reports every fault as problem details (RFC 9457).
 *
 * What the caller owes, since nothing checks it:
 * 1. A pointer and its length name memory that is there, and is not NULL, also where the length is 0.
 * 2. `out`, `len` and `checker` overlap neither each other nor `body` and `language`, and nothing
 *    else reads or writes them during the call, nor writes `body` and `language`.
 * 3. A checker begins with all bytes 0, is used by one thread at a time, is not copied, and is
 *    written by these functions alone.
 * 4. `malloc`, `realloc` and `free` belong together, and no call comes from a signal handler or
 *    from the forked child of a process with threads.
 *
 * No function keeps anything from one call to the next, but for what a checker holds, and any number
 * of threads may call at the same time.
 */

#ifndef ORDER_H
#define ORDER_H

#include <stdbool.h>
#include <stddef.h>
#include <stdint.h>

#ifdef __cplusplus
extern "C" {
#endif

/* The version of the interface that this header describes. */
#define ORDER_VERSION 4u

/* There is no fault. */
#define ORDER_VALID 0
/* There are faults of form or of the rules. */
#define ORDER_FAULTS 1
/* The bytes are no JSON text. */
#define ORDER_NO_JSON 2
/* Out of memory. */
#define ORDER_MEMORY 3
/* Not even one fault was asked for. */
#define ORDER_WRONG_ARGUMENT 4

/* Room that is kept from one call to the next. Begin with ORDER_CHECKER_EMPTY, or with all bytes 0. */
typedef struct {
  void *room;
  bool has_room;
} order_checker;

#define ORDER_CHECKER_EMPTY {NULL, false}

/* `null`. */
#define ORDER_NODE_NULL 0
/* `false`. */
#define ORDER_NODE_FALSE 1
/* `true`. */
#define ORDER_NODE_TRUE 2
/* A whole number of at most 64 bits and no sign: `value` is the number. */
#define ORDER_NODE_WHOLE 3
/* A whole number below zero, of at most 64 bits with its sign: `value` is the number without it. */
#define ORDER_NODE_NEGATIVE 4
/* Any other number, which has a text. */
#define ORDER_NODE_NUMBER 5
/* A text, or the name of a member. */
#define ORDER_NODE_TEXT 6
/* A list: `value` says how many items follow. */
#define ORDER_NODE_LIST 7
/* An object: `value` says how many members follow, each a name and a value. */
#define ORDER_NODE_OBJECT 8
/* A node of a JSON value. The nodes of a value are in the order of its text, so that what is in a list
 * or in an object comes right behind it.
 */
typedef struct {
  /* What begins here. */
  uint8_t kind;
  /* Of a text: whether it lies in `texts`, and not in the body. */
  bool in_texts;
  /* Of a text: so many bytes. */
  uint32_t len;
  /* Of a text: where it begins. Else see the kind. */
  uint64_t value;
} order_node;

/* Where a fault is in a body: of an unknown or a repeated member its name, and else its value. A byte
 * order mark is not counted.
 */
typedef struct {
  /* The line, from 1 on. */
  uint64_t line;
  /* The column, in characters from 1 on. */
  uint64_t column;
} order_place;

/* The version of this interface: ORDER_VERSION, where the header belongs to the library. */
uint32_t order_version(void);

/* Checks the bytes of an order, and returns a status. `out` gets the problem details of what is
 * wrong, as UTF-8 with no 0 at the end, cut where it ends; the rest of it stays as it was. `len` gets
 * the length of the details as a whole: where it is greater than `out_len`, call again with more
 * room. Of ORDER_VALID, ORDER_MEMORY and ORDER_WRONG_ARGUMENT there are no details, and `len` is 0.
 *
 * The details have `most` faults at most (SIZE_MAX: all), in the order of the form. Where there are
 * more, their member `detail` is "there are more". Sentences are Czech where `language` is "cs", and
 * English of any other and of none.
 */
uint8_t order_check(const uint8_t *body,
                    size_t body_len,
                    size_t most,
                    const uint8_t *language,
                    size_t language_len,
                    uint8_t *out,
                    size_t out_len,
                    size_t *len);

/* Returns the status of the bytes of an order, and no details: ORDER_VALID, ORDER_FAULTS,
 * ORDER_NO_JSON or ORDER_MEMORY. Reading ends at the first fault.
 */
uint8_t order_is_valid(const uint8_t *body, size_t body_len);

/* Makes the room of a checker for bodies of `body_len` bytes, and returns ORDER_VALID or
 * ORDER_MEMORY. A call may be left out: `order_check_with` makes the room that it lacks.
 */
uint8_t order_reserve(order_checker *checker, uint32_t body_len);

/* Does what `order_check` does, in the room of a checker, which is kept for the next call. The answer
 * does not depend on what was checked before.
 */
uint8_t order_check_with(order_checker *checker,
                         const uint8_t *body,
                         size_t body_len,
                         size_t most,
                         const uint8_t *language,
                         size_t language_len,
                         uint8_t *out,
                         size_t out_len,
                         size_t *len);

/* Does what `order_check_with` does, and reports what is wrong in lines: `out` gets a line
 * `path: message` for each fault, without codes, and the line `there are more` where there are. Of bytes
 * that are no JSON text the line says why, with line and column. It takes less time than problem details.
 * The name of an unknown member stands in its line as the body has it, a line feed or a code of a
 * terminal too: escape it before you show it.
 */
uint8_t order_list_with(order_checker *checker,
                        const uint8_t *body,
                        size_t body_len,
                        size_t most,
                        const uint8_t *language,
                        size_t language_len,
                        uint8_t *out,
                        size_t out_len,
                        size_t *len);

/* Returns what `order_is_valid` returns, and of ORDER_VALID hands over the JSON value that was judged: its
 * nodes, in the order of the text, and in `texts` those of its texts that the body has with an escape. A
 * text lies in `body` or in `texts`, as its node says.
 *
 * `nodes` and `texts` get as much as they have room for, and `nodes_used` and `texts_used` say how much it
 * is as a whole: where that is more, call again with more room. Of any other status both are 0.
 */
uint8_t order_value_with(order_checker *checker,
                         const uint8_t *body,
                         size_t body_len,
                         order_node *nodes,
                         size_t nodes_len,
                         size_t *nodes_used,
                         uint8_t *texts,
                         size_t texts_len,
                         size_t *texts_used);

/* Does what `order_check_with` does, and hands over the details as nodes too, as `order_value_with` does:
 * their texts lie in `texts`. The value is an object. Its last member is `errors`, a list with an object for
 * each fault: `pointer`, `detail`, `code` and `params`, in this order.
 *
 * Give `out_len` 0 if you do not ask for the details as text: then they are not written, and `len` is 0. Where
 * there are no details, `nodes_used` and `texts_used` are 0.
 *
 * Of ORDER_FAULTS `places` gets where in the body each fault is, in the order of `errors`, as far as it has
 * room, and `places_used` says how many faults there are. Give `places_len` 0 if you do not ask: then
 * nothing is looked for, and `places_used` is 0.
 */
uint8_t order_faults_with(order_checker *checker,
                          const uint8_t *body,
                          size_t body_len,
                          size_t most,
                          const uint8_t *language,
                          size_t language_len,
                          uint8_t *out,
                          size_t out_len,
                          size_t *len,
                          order_node *nodes,
                          size_t nodes_len,
                          size_t *nodes_used,
                          uint8_t *texts,
                          size_t texts_len,
                          size_t *texts_used,
                          order_place *places,
                          size_t places_len,
                          size_t *places_used);

/* Frees the room of a checker, and leaves it as it began. A second call does nothing. */
void order_free(order_checker *checker);

#ifdef __cplusplus
}
#endif

#endif
