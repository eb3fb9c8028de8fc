/* Tries what a caller of the library of crates/use_schemas may meet: schemas that are none, two checkers of two schemas at once, many
 * threads, and memory that runs out. It is linked with --wrap for malloc, realloc and free, so that it counts the blocks and refuses
 * the request that it chooses. It prints what is wrong, and ends with 1 then.
 */
#include <pthread.h>
#include <stdio.h>
#include <stdlib.h>
#include <string.h>

#include "schema.h"

#include "library-blocks.c"

static const char *TEXT = "{\"type\":\"string\",\"minLength\":2}";
static const char *ITEMS = "{\"$ref\":\"#/$defs/node\",\"$defs\":{\"node\":{\"type\":\"array\",\"items\":{\"$ref\":\"#/$defs/node\"}}}}";
static const char *ALL = "\"a\"", *NESTED = "[[],[[1]]]";

/* What all the functions answer of a body. */
typedef struct {
  int check, list, verdict, value, faults;
  size_t details_len, lines_len, nodes, texts, len, fault_nodes, fault_texts, found;
  char details[1024], lines[256], text[1024];
  schema_place places[8];
} answer;

static answer answers(schema_checker *checker, const char *schema, const char *body, const char *tag) {
  answer got = {0};
  schema_node nodes[128];
  uint8_t texts[512];
  const uint8_t *by = (const uint8_t *)schema, *at = (const uint8_t *)body, *in = (const uint8_t *)tag;
  size_t by_len = strlen(schema), len = strlen(body), in_len = strlen(tag);
  got.check = schema_check_with(checker, by, by_len, at, len, SIZE_MAX, in, in_len, (uint8_t *)got.details, sizeof got.details, &got.details_len);
  got.list = schema_list_with(checker, by, by_len, at, len, SIZE_MAX, in, in_len, (uint8_t *)got.lines, sizeof got.lines, &got.lines_len);
  got.verdict = schema_is_valid(by, by_len, at, len);
  got.value = schema_value_with(checker, by, by_len, at, len, nodes, 128, &got.nodes, texts, sizeof texts, &got.texts);
  got.faults = schema_faults_with(checker, by, by_len, at, len, SIZE_MAX, in, in_len, (uint8_t *)got.text, sizeof got.text, &got.len, nodes,
                                  128, &got.fault_nodes, texts, sizeof texts, &got.fault_texts, got.places, 8, &got.found);
  return got;
}

static bool same(const answer *a, const answer *b) { return !memcmp(a, b, sizeof *a); }

/* All functions say this of a body, with so many faults. */
static answer all_say(const char *schema, const char *body, int status, size_t found) {
  schema_checker checker = SCHEMA_CHECKER_EMPTY;
  answer got = answers(&checker, schema, body, "");
  uint8_t out[1024];
  size_t len = 0;
  int plain = schema_check((const uint8_t *)schema, strlen(schema), (const uint8_t *)body, strlen(body), SIZE_MAX, (const uint8_t *)"", 0, out,
                           sizeof out, &len);
  expect(got.check == status && got.list == status && got.verdict == status && got.value == status && got.faults == status, body);
  expect(plain == status && len == got.details_len && !memcmp(out, got.details, len), "a check needs no checker");
  expect(got.len == got.details_len && !memcmp(got.text, got.details, got.len), "both give the same details");
  expect((status == SCHEMA_FAULTS || status == SCHEMA_NO_JSON) == (got.len > 0), "details are there where something is wrong with the body");
  expect((got.nodes > 0) == (status == SCHEMA_VALID) && got.found == found, "a value has nodes, and faults have places");
  schema_free(&checker);
  schema_free(&checker);
  expect(!checker.room && !checker.has_room && !checker.schema_room && !checker.has_schema_room, "a freed checker holds nothing");
  return got;
}

static void try_bodies(void) {
  all_say(TEXT, "\"ab\"", SCHEMA_VALID, 0);
  answer got = all_say(TEXT, ALL, SCHEMA_FAULTS, 1);
  expect(!strcmp(got.lines, "length is lower than 2\n") && got.places[0].line == 1 && got.places[0].column == 1, "a fault of a text");
  got = all_say(ITEMS, NESTED, SCHEMA_FAULTS, 1);
  expect(!strcmp(got.lines, "[1][0][0]: not a list\n") && got.places[0].column == 7, "a fault in a list");
  all_say(TEXT, "", SCHEMA_NO_JSON, 0);
  all_say("true", "\"a\\u0041\"", SCHEMA_VALID, 0);
  all_say("false", "1", SCHEMA_FAULTS, 1);
  expect(schema_version() == SCHEMA_VERSION, "the version");
}

/* A body is a schema: one that is none, and the schema of itself. */
static void try_schemas(void) {
  answer got = all_say("", "{\"type\":\"strin\",\n \"pattern\":1,\"minLength\":2,\"maxLength\":1}", SCHEMA_FAULTS, 3);
  expect(got.places[0].line == 2 && got.places[0].column == 2 && got.places[1].line == 1 && got.places[1].column == 9 && got.places[2].line == 2 &&
             got.places[2].column == 40,
         "places in a schema");
  all_say("", TEXT, SCHEMA_VALID, 0);
  all_say("", ITEMS, SCHEMA_VALID, 0);
  all_say("", "{\"$ref\":\"#\"}", SCHEMA_FAULTS, 1);
  all_say("", "{", SCHEMA_NO_JSON, 0);
  all_say("{\"type\":\"object\"}", "{\"type\":\"object\"}", SCHEMA_VALID, 0);
  const char *none[] = {"{", "\xff", "{}{}", " "};
  for (int i = 0; i < 4; i++) all_say(none[i], "1", SCHEMA_WRONG_ARGUMENT, 0);
}

/* The same room serves two schemas, and one that is none, in turn. A language that is not there is English. */
static void try_in_turn(void) {
  schema_checker one = SCHEMA_CHECKER_EMPTY, other = SCHEMA_CHECKER_EMPTY;
  long before = blocks;
  expect(schema_reserve(&one, 4096) == SCHEMA_VALID, "room is made");
  answer text = answers(&one, TEXT, ALL, ""), items = answers(&other, ITEMS, NESTED, "");
  for (int i = 0; i < 20; i++) {
    answer got = answers(&one, i % 2 ? TEXT : ITEMS, i % 2 ? ALL : NESTED, i % 3 ? "" : "xx");
    expect(same(&got, i % 2 ? &text : &items), "an answer does not depend on the one before");
    got = answers(&other, i % 5 ? ITEMS : "{", NESTED, "en");
    expect(i % 5 ? same(&got, &items) : got.check == SCHEMA_WRONG_ARGUMENT, "nor on a schema that is none");
  }
  answer german = answers(&one, TEXT, ALL, "de");
  expect(strstr(german.lines, "kleiner als 2") && german.places[0].line == 1, "German");
  expect(same(&german, &(answer){0}) == false && !same(&german, &text), "another language");
  schema_free(&one);
  schema_free(&other);
  expect(blocks == before, "no block is left");
}

/* An answer that is right, or that memory ran out and nothing is handed over. */
static bool is_right(int status, int right, size_t len, size_t right_len) {
  return status == SCHEMA_MEMORY ? !len : status == right && len == right_len;
}

/* The request for memory whose number is N is refused: each answer is the right one or SCHEMA_MEMORY. */
static void try_memory(const char *schema, const char *body, const char *tag) {
  schema_checker checker = SCHEMA_CHECKER_EMPTY;
  answer right = answers(&checker, schema, body, tag);
  schema_free(&checker);
  for (long n = 1;; n++) {
    long before = blocks;
    requests = 0;
    refused = n;
    answer got = answers(&checker, schema, body, tag);
    bool was_refused = requests >= n;
    refused = 0;
    expect(is_right(got.check, right.check, got.details_len, right.details_len) && is_right(got.list, right.list, got.lines_len, right.lines_len) &&
               is_right(got.value, right.value, got.nodes, right.nodes) && is_right(got.faults, right.faults, got.fault_nodes, right.fault_nodes) &&
               is_right(got.verdict, right.verdict, 0, 0),
           "a refused request gives the right answer or SCHEMA_MEMORY");
    answer again = answers(&checker, schema, body, tag);
    expect(same(&again, &right), "the next answer is right");
    schema_free(&checker);
    expect(blocks == before, "no block is left");
    if (!was_refused) return;
  }
}

static void *in_thread(void *given) {
  bool is_text = given != NULL;
  schema_checker checker = SCHEMA_CHECKER_EMPTY;
  answer first = answers(&checker, is_text ? TEXT : ITEMS, is_text ? ALL : NESTED, "fr");
  for (int i = 0; i < 200; i++) {
    answer got = answers(&checker, is_text ? TEXT : ITEMS, is_text ? ALL : NESTED, "fr");
    expect(same(&got, &first), "a thread gets the same answer each time");
  }
  schema_free(&checker);
  return NULL;
}

static void try_threads(void) {
  pthread_t threads[16];
  long before = blocks;
  for (int i = 0; i < 16; i++) expect(!pthread_create(&threads[i], NULL, in_thread, i % 2 ? &threads : NULL), "a thread starts");
  for (int i = 0; i < 16; i++) pthread_join(threads[i], NULL);
  expect(blocks == before, "no block is left by threads");
}

/* A schema with 10,000 definitions, and 100,000 lists in one another. */
static void try_size(void) {
  char *large = __real_malloc(400 * 1000), *end = large;
  end += sprintf(end, "{\"$ref\":\"#/$defs/d9999\",\"$defs\":{\"d\":true");
  for (int i = 0; i < 10000; i++) end += sprintf(end, ",\"d%d\":{\"maximum\":%d}", i, i);
  end += sprintf(end, "}}");
  all_say("", large, SCHEMA_VALID, 0);
  all_say(large, "9999", SCHEMA_VALID, 0);
  all_say(large, "10000", SCHEMA_FAULTS, 1);
  memset(large, '[', 100000);
  large[100000] = 0;
  all_say("", large, SCHEMA_NO_JSON, 0);
  all_say(large, "1", SCHEMA_WRONG_ARGUMENT, 0);
  __real_free(large);
}

int main(void) {
  try_bodies();
  try_schemas();
  try_in_turn();
  try_memory(TEXT, ALL, "");
  try_memory(ITEMS, NESTED, "de");
  try_memory("", "{\"type\":1}", "");
  try_memory("{", "1", "");
  try_memory(TEXT, "\"ab\"", "");
  try_threads();
  try_size();
  return wrong != 0;
}
