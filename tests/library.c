/* Tries what a caller of the library of crates/use_library may meet: no room, no bytes, much room, many threads, and memory that runs
 * out. It is linked with --wrap for malloc, realloc and free, so that it counts the blocks and refuses the request that it chooses.
 * It prints what is wrong, and ends with 1 then.
 */
#include <pthread.h>
#include <stdio.h>
#include <stdlib.h>
#include <string.h>

#include "order.h"

#include "library-blocks.c"

/* How many calls are made: 1,000,000, or what the first word says. */
static long calls = 1000000;

/* An answer: a status, and the details in a fresh piece of memory that is not the library's. */
typedef struct {
  int status;
  size_t len;
  char text[2048];
} answer;

static const char *GOOD = "{\"customer\":\"Ada\",\"lines\":[{\"code\":\"P1\",\"count\":1}]}";
static const char *BAD = "{\"customer\":\"\",\"lines\":[{\"code\":\"X\",\"count\":0}],\"x\":1}";

static answer checked_bytes(order_checker *checker, const uint8_t *body, size_t len, size_t most) {
  answer got = {0, 99, {0}};
  const uint8_t *none = (const uint8_t *)"";
  uint8_t *out = (uint8_t *)got.text;
  got.status = checker ? order_check_with(checker, body, len, most, none, 0, out, sizeof got.text, &got.len)
                       : order_check(body, len, most, none, 0, out, sizeof got.text, &got.len);
  return got;
}

static answer checked(order_checker *checker, const char *body, size_t most) {
  return checked_bytes(checker, (const uint8_t *)body, strlen(body), most);
}

static bool same(const answer *a, const answer *b) {
  return a->status == b->status && a->len == b->len && memcmp(a->text, b->text, sizeof a->text) == 0;
}

/* The same faults in lines, in a checker that has no room yet. */
static void try_lines(void) {
  const char *all = "customer: length is lower than 1\nlines[0].code: value does not begin with \"P\"\n"
                    "lines[0].count: lower than 1\nx: not known here\n";
  order_checker checker = ORDER_CHECKER_EMPTY;
  for (size_t most = 0; most <= 5; most++) {
    char out[512] = {0};
    size_t len = 0;
    int status = order_list_with(&checker, (const uint8_t *)BAD, strlen(BAD), most, (const uint8_t *)"", 0, (uint8_t *)out, sizeof out, &len);
    expect(status == (most ? ORDER_FAULTS : ORDER_WRONG_ARGUMENT) && len == strlen(out), "lines have a status and a length");
    size_t end = 0, count = most < 4 ? most : 4;
    for (size_t i = 0; i < count; i++) end += strcspn(all + end, "\n") + 1;
    expect(!strncmp(out, all, end), "so many faults are listed");
    expect(!strcmp(out + end, most && most < 4 ? "there are more\n" : ""), "there are more lines");
  }
  order_free(&checker);
}

#include "library-nodes.c"

/* The details are cut at each room that is too small, and what is behind the room stays. */
static void try_room(void) {
  answer whole = checked(NULL, BAD, SIZE_MAX);
  expect(whole.status == ORDER_FAULTS && whole.len > 100, "the faulty body has details");
  for (size_t room = 0; room <= whole.len + 2; room++) {
    uint8_t out[2048];
    size_t len = 0;
    memset(out, '#', sizeof out);
    int status = order_check((const uint8_t *)BAD, strlen(BAD), SIZE_MAX, (const uint8_t *)"en", 2, out, room, &len);
    size_t cut = room < whole.len ? room : whole.len;
    expect(status == ORDER_FAULTS && len == whole.len, "the status and the length do not depend on the room");
    expect(memcmp(out, whole.text, cut) == 0, "the details are cut");
    for (size_t i = cut; i < sizeof out; i++) expect(out[i] == '#', "nothing is written behind them");
  }
}

static void try_bytes(void) {
  expect(checked(NULL, GOOD, 1).status == ORDER_VALID && checked(NULL, GOOD, 1).len == 0, "a valid order");
  expect(checked(NULL, GOOD, 0).status == ORDER_WRONG_ARGUMENT && checked(NULL, GOOD, 0).len == 0, "no fault is asked for");
  expect(checked(NULL, "", 1).status == ORDER_NO_JSON, "no bytes");
  expect(strstr(checked(NULL, "{\"a\":\n 1,,}", 1).text, "not JSON at line 2 column 4"), "the place is told");
  expect(strstr(checked(NULL, "\"\xff\"", 1).text, "not UTF-8 at line 1 column 2"), "bytes that are no UTF-8");
  expect(strstr(checked(NULL, BAD, 2).text, "\"detail\":\"there are more\""), "there are more");
  expect(!strstr(checked(NULL, BAD, 4).text, "there are more"), "there are just so many");
  expect(order_is_valid((const uint8_t *)GOOD, strlen(GOOD)) == ORDER_VALID, "is_valid of a valid order");
  expect(order_is_valid((const uint8_t *)BAD, strlen(BAD)) == ORDER_FAULTS, "is_valid of a faulty order");
  expect(order_is_valid((const uint8_t *)"", 0) == ORDER_NO_JSON, "is_valid of no bytes");
  expect(order_version() == ORDER_VERSION, "the version");
}

/* Large bodies: 50 MB of lines (1 MB where few calls are made), and 100,000 lists in one another. */
static void try_size(void) {
  size_t len = calls < 10000 ? 1000 * 1000 : 50 * 1000 * 1000;
  char *body = __real_malloc(len), *end = body;
  end += sprintf(end, "{\"customer\":\"Ada\",\"lines\":[");
  while (end + 64 < body + len) end += sprintf(end, "{\"code\":\"P1\",\"count\":1},");
  end += sprintf(end, "{\"code\":\"P1\",\"count\":1}]}");
  answer got = checked_bytes(NULL, (uint8_t *)body, (size_t)(end - body), SIZE_MAX);
  expect(got.status == ORDER_FAULTS && strstr(got.text, "length_greater_than"), "a body of 50 MB");
  memset(body, '[', 100000);
  got = checked_bytes(NULL, (uint8_t *)body, 100000, SIZE_MAX);
  expect(got.status == ORDER_NO_JSON && strstr(got.text, "deeper than 128"), "100,000 lists in one another");
  __real_free(body);
}

/* The request for memory whose number is N is refused: the answer is the right one or ORDER_MEMORY, and no block is left. */
static void try_memory(const char *body, bool kept) {
  answer right = checked(NULL, body, SIZE_MAX);
  for (long n = 1;; n++) {
    order_checker checker = ORDER_CHECKER_EMPTY;
    long before = blocks;
    requests = 0;
    refused = n;
    answer got = checked(kept ? &checker : NULL, body, SIZE_MAX);
    bool was_refused = requests >= n;
    refused = 0;
    answer none = {ORDER_MEMORY, 0, {0}};
    expect(same(&got, &right) || (was_refused && same(&got, &none)), "a refused request gives the right answer or ORDER_MEMORY");
    answer again = checked(kept ? &checker : NULL, body, SIZE_MAX);
    expect(same(&again, &right), "the next answer is right");
    order_free(&checker);
    order_free(&checker);
    expect(blocks == before, "no block is left");
    if (!was_refused) return;
  }
}

/* What both functions with nodes answer of a body: the statuses, and how much they hand over. */
typedef struct {
  int value_status, faults_status;
  size_t nodes, texts, len, fault_nodes, fault_texts;
} handed;

static handed handed_over(order_checker *checker, const char *body) {
  handed got = {0};
  order_node nodes[128];
  uint8_t out[2048], texts[256];
  order_place none;
  size_t len = strlen(body), places = 0;
  got.value_status = order_value_with(checker, (const uint8_t *)body, len, nodes, 128, &got.nodes, texts, sizeof texts, &got.texts);
  got.faults_status = order_faults_with(checker, (const uint8_t *)body, len, SIZE_MAX, (const uint8_t *)"", 0, out, sizeof out, &got.len, nodes,
                                        128, &got.fault_nodes, texts, sizeof texts, &got.fault_texts, &none, 0, &places);
  return got;
}

/* Each request of these two is refused in turn: they hand over what is right, or ORDER_MEMORY and no node. */
static void try_memory_of_nodes(const char *body) {
  order_checker checker = ORDER_CHECKER_EMPTY;
  handed right = handed_over(&checker, body);
  order_free(&checker);
  for (long n = 1;; n++) {
    long before = blocks;
    requests = 0;
    refused = n;
    handed got = handed_over(&checker, body);
    bool was_refused = requests >= n;
    refused = 0;
    expect(got.value_status == ORDER_MEMORY ? !got.nodes && !got.texts : got.nodes == right.nodes && got.texts == right.texts,
           "a refused request gives the right nodes or none");
    expect(got.faults_status == ORDER_MEMORY ? !got.fault_nodes && !got.fault_texts : got.len == right.len && got.fault_nodes == right.fault_nodes,
           "a refused request gives the right faults or none");
    expect(was_refused || !memcmp(&got, &right, sizeof got), "both answer where no request is refused");
    order_free(&checker);
    expect(blocks == before, "no block is left by nodes");
    if (!was_refused) return;
  }
}

/* A checker answers of the body that it is given, whatever it was given before. */
static void try_checker(void) {
  const char *bodies[] = {GOOD, BAD, "nope", "", "{\"customer\":\"\\u0041\",\"lines\":[]}"};
  order_checker checker = ORDER_CHECKER_EMPTY;
  long before = blocks;
  expect(order_reserve(&checker, 4096) == ORDER_VALID, "room is made");
  for (int i = 0; i < 25; i++) {
    answer kept = checked(&checker, bodies[i % 5], SIZE_MAX), fresh = checked(NULL, bodies[i % 5], SIZE_MAX);
    expect(same(&kept, &fresh), "a checker gives the answer of its body");
    kept = checked(&checker, bodies[i / 5], SIZE_MAX);
  }
  order_free(&checker);
  expect(blocks == before && !checker.room && !checker.has_room, "a freed checker holds nothing");
}

/* How many requests for memory a check makes. */
static long requests_of(order_checker *checker, const char *body) {
  requests = 0;
  checked(checker, body, SIZE_MAX);
  return requests;
}

/* Room that was made is there at the first check, and room of a check at the next one: then a valid body takes room for its list of
 * lines alone. Where no room can be made, the answer is ORDER_MEMORY. */
static void try_reserved(void) {
  order_checker empty = ORDER_CHECKER_EMPTY, ready = ORDER_CHECKER_EMPTY;
  expect(order_reserve(&ready, 4096) == ORDER_VALID, "room is made");
  expect(requests_of(&ready, GOOD) < requests_of(&empty, GOOD), "the room is there at the first check");
  for (int i = 0; i < 1000; i++) {
    checked(&ready, BAD, SIZE_MAX);
    expect(requests_of(&ready, GOOD) == 1, "a valid body takes room for its list alone");
  }
  order_free(&ready);
  for (refused = 1; refused < 100; refused++) {
    requests = 0;
    int status = order_reserve(&ready, 4096);
    bool was_refused = requests >= refused;
    expect(status == (was_refused ? ORDER_MEMORY : ORDER_VALID), "no room is ORDER_MEMORY");
    order_free(&ready);
    if (!was_refused) break;
  }
  refused = 0;
  order_free(&empty);
}

static void *in_thread(void *given) {
  const char *body = given;
  order_checker checker = ORDER_CHECKER_EMPTY;
  answer first = checked(&checker, body, SIZE_MAX);
  for (long i = 0; i < calls / 500; i++) {
    answer got = checked(&checker, body, SIZE_MAX);
    expect(same(&got, &first), "a thread gets the same answer each time");
  }
  order_free(&checker);
  return NULL;
}

static void try_threads(void) {
  pthread_t threads[64];
  long before = blocks;
  for (int i = 0; i < 64; i++) expect(!pthread_create(&threads[i], NULL, in_thread, (void *)(i % 2 ? GOOD : BAD)), "a thread starts");
  for (int i = 0; i < 64; i++) pthread_join(threads[i], NULL);
  expect(blocks == before, "no block is left by threads");
}

/* Many calls leave no block. */
static void try_calls(void) {
  order_checker checker = ORDER_CHECKER_EMPTY;
  long before = blocks;
  for (long i = 0; i < calls; i++) checked_bytes(&checker, (const uint8_t *)(i % 2 ? GOOD : BAD), strlen(i % 2 ? GOOD : BAD), SIZE_MAX);
  for (long i = 0; i < calls; i += 2) handed_over(&checker, i % 4 ? GOOD : BAD);
  order_free(&checker);
  expect(blocks == before, "no block is left by many calls");
}

int main(int count, char **words) {
  if (count > 1) calls = atol(words[1]);
  try_room();
  try_bytes();
  try_lines();
  try_nodes();
  try_fault_nodes();
  try_places();
  try_places_memory();
  try_size();
  for (int kept = 0; kept < 2; kept++) {
    try_memory(GOOD, kept);
    try_memory(BAD, kept);
    try_memory("nope", kept);
  }
  try_memory_of_nodes(GOOD);
  try_memory_of_nodes(BAD);
  try_memory_of_nodes("nope");
  try_checker();
  try_reserved();
  try_threads();
  try_calls();
  return wrong != 0;
}
