/* check [LANGUAGE]: checks the body on standard input, writes the problem details of what is wrong to standard output, and ends
 * with the status of the check. Where memory or a device fails, or the library has another version, it ends with 10.
 *
 * Of a library that takes a schema it is check SCHEMA [LANGUAGE], with the file of one. The details of a schema that is none are
 * written too, and it ends with 10.
 */
#include <stdio.h>
#include <stdlib.h>
#include <string.h>

#include "order.h"

static const int FAILED = 10;

/* Bytes that grow. */
typedef struct {
  uint8_t *at;
  size_t len, room;
} bytes;

/* The schema that bodies are checked by: an argument of each call, where the library takes one. One without bytes is the schema of
 * schemas. */
#ifdef ORDER_TAKES_SCHEMA
static bytes schema = {(uint8_t[]){0}, 0, 0};
#define BY schema.at, schema.len,
#else
#define BY
#endif

/* Makes room for so many bytes in all. */
static bool grow(bytes *held, size_t room) {
  uint8_t *at = room <= held->room ? held->at : realloc(held->at, room);
  if (!at) return false;
  held->at = at;
  held->room = room <= held->room ? held->room : room;
  return true;
}

/* Reads a stream to its end. */
static bool read_all(FILE *from, bytes *held) {
  do {
    if (held->len == held->room && !grow(held, held->room ? 2 * held->room : 4096)) return false;
    held->len += fread(held->at + held->len, 1, held->room - held->len, from);
  } while (!feof(from) && !ferror(from));
  return !ferror(from);
}

/* Checks a body. Where the details are longer than there is room for, it asks again with more room. */
static int check(const bytes *body, const char *language, bytes *details) {
  const uint8_t *tag = (const uint8_t *)language;
  if (!grow(details, 512)) return FAILED;
  int status = order_check(BY body->at, body->len, SIZE_MAX, tag, strlen(language), details->at, details->room, &details->len);
  if (details->len > details->room) {
    if (!grow(details, details->len)) return FAILED;
    status = order_check(BY body->at, body->len, SIZE_MAX, tag, strlen(language), details->at, details->room, &details->len);
  }
  return status;
}

/* Begins with the words of the command, of which so many stand before the language. Gives the status of the schema, which is judged
 * before any body. */
#ifdef ORDER_TAKES_SCHEMA
enum { BEFORE = 2 };

static int begin(char **words, bytes *details) {
  FILE *file = fopen(words[1], "rb");
  bytes read = {NULL, 0, 0};
  int status = file && read_all(file, &read) ? check(&read, "", details) : FAILED;
  if (file) fclose(file);
  schema = read;
  return status;
}
#else
enum { BEFORE = 1 };

static int begin(char **words, bytes *details) {
  (void)words;
  (void)details;
  return ORDER_VALID;
}
#endif

int main(int count, char **words) {
  bytes body = {NULL, 0, 0}, details = {NULL, 0, 0};
  if (order_version() != ORDER_VERSION || count < BEFORE || !read_all(stdin, &body)) return FAILED;
  int begun = begin(words, &details);
  int status = begun == ORDER_VALID ? check(&body, count > BEFORE ? words[BEFORE] : "", &details) : begun;
  if (status != FAILED && fwrite(details.at, 1, details.len, stdout) != details.len) status = FAILED;
  if (fflush(stdout) != 0) status = FAILED;
  free(body.at);
  free(details.at);
  return begun == ORDER_VALID ? status : FAILED;
}
