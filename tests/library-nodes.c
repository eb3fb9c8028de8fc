/* Values and faults as nodes, and the places of faults: a part of library.c. */

/* A valid order as nodes: its texts lie in the body, but for one with an escape. Of a faulty one there are none. */
static void try_nodes(void) {
  const char *body = "{\"customer\":\"A\\u0064a\",\"lines\":[{\"code\":\"P1\",\"count\":7}]}";
  const struct { uint8_t kind; uint64_t value; const char *text; } wanted[] = {
    {ORDER_NODE_OBJECT, 2, NULL}, {ORDER_NODE_TEXT, 2, "customer"}, {ORDER_NODE_TEXT, 0, "Ada"}, {ORDER_NODE_TEXT, 24, "lines"},
    {ORDER_NODE_LIST, 1, NULL}, {ORDER_NODE_OBJECT, 2, NULL}, {ORDER_NODE_TEXT, 34, "code"}, {ORDER_NODE_TEXT, 41, "P1"},
    {ORDER_NODE_TEXT, 46, "count"}, {ORDER_NODE_WHOLE, 7, NULL}};
  order_checker checker = ORDER_CHECKER_EMPTY;
  for (size_t room = 0; room <= 11; room++) {
    order_node nodes[11];
    uint8_t texts[8];
    size_t used = 99, texts_used = 99;
    memset(nodes, '#', sizeof nodes);
    int status = order_value_with(&checker, (const uint8_t *)body, strlen(body), nodes, room, &used, texts, sizeof texts, &texts_used);
    expect(status == ORDER_VALID && used == 10 && texts_used == 3, "a value has its nodes and its texts");
    for (size_t i = 0; i < 10 && i < room; i++) {
      bool is_text = wanted[i].text != NULL;
      expect(nodes[i].kind == wanted[i].kind && nodes[i].value == wanted[i].value, "a node is that of the value");
      expect(!is_text || nodes[i].len == strlen(wanted[i].text), "a text has its length");
      expect(!is_text || !memcmp((nodes[i].in_texts ? (const char *)texts : body) + nodes[i].value, wanted[i].text, nodes[i].len),
             "a text lies where its node says");
    }
    expect(room > 10 || nodes[room].kind == '#', "no node is behind the room");
    status = order_value_with(&checker, (const uint8_t *)BAD, strlen(BAD), nodes, room, &used, texts, sizeof texts, &texts_used);
    expect(status == ORDER_FAULTS && used == 0 && texts_used == 0, "a faulty body has no nodes");
  }
  order_free(&checker);
}

/* An answer of order_faults_with. */
typedef struct {
  int status;
  size_t len, used, texts_used, places_used;
  uint8_t out[2048], texts[256];
  order_node nodes[128];
  order_place places[6];
} faults;

static faults faults_of(order_checker *checker, const char *body, size_t room, size_t places) {
  faults got = {0, 99, 99, 99, 99, {0}, {0}, {{0}}, {{0}}};
  memset(got.places, '#', sizeof got.places);
  got.status = order_faults_with(checker, (const uint8_t *)body, strlen(body), SIZE_MAX, (const uint8_t *)"", 0, got.out, room, &got.len,
                                 got.nodes, 128, &got.used, got.texts, sizeof got.texts, &got.texts_used, got.places, places, &got.places_used);
  return got;
}

/* The details of a faulty order as nodes, and as text where `out` has room for a byte. */
static void try_fault_nodes(void) {
  answer whole = checked(NULL, BAD, SIZE_MAX);
  order_checker checker = ORDER_CHECKER_EMPTY;
  for (size_t room = 0; room <= whole.len; room++) {
    faults got = faults_of(&checker, BAD, room, 0);
    expect(got.status == ORDER_FAULTS && got.len == (room ? whole.len : 0) && !memcmp(got.out, whole.text, room), "the details are those of order_check");
    expect(got.out[room] == 0, "nothing is written behind the details");
    for (size_t i = 0; i < got.used; i++)
      expect(got.nodes[i].kind != ORDER_NODE_TEXT || (got.nodes[i].in_texts && got.nodes[i].value + got.nodes[i].len <= got.texts_used), "a text of a fault lies among the texts");
    expect(got.nodes[0].kind == ORDER_NODE_OBJECT && got.nodes[0].value == 3, "the details have three members");
    expect(got.nodes[4].kind == ORDER_NODE_WHOLE && got.nodes[4].value == 422, "the details have their status");
    expect(got.nodes[6].kind == ORDER_NODE_LIST && got.nodes[6].value == 4, "the details have four faults");
  }
  order_free(&checker);
}

/* A body with a mark, two lines and a character of two bytes, and where its faults are. */
static const char *PLACED = "\xEF\xBB\xBF{\"customer\":\"\",\n \"lines\":[{\"code\":\"\xC3\xA9\",\"count\":0}],\"x\":1}";
static const order_place PLACES[] = {{1, 13}, {2, 19}, {2, 31}, {2, 35}};

/* So many places as there is room for: of a value, or of the name of a member that is not known. A body without faults has none. */
static void try_places(void) {
  order_checker checker = ORDER_CHECKER_EMPTY;
  for (size_t room = 0; room <= 5; room++) {
    faults got = faults_of(&checker, PLACED, 0, room);
    expect(got.status == ORDER_FAULTS && got.places_used == (room ? 4 : 0), "faults have places where one is asked for");
    expect(!memcmp(got.places, PLACES, (room < 4 ? room : 4) * sizeof *PLACES), "a place is that of its fault");
    const uint8_t *behind = (const uint8_t *)(got.places + (room < 4 ? room : 4));
    expect(*behind == '#', "nothing is written behind the places");
    expect(faults_of(&checker, GOOD, 0, room).places_used == 0, "a valid order has no places");
    expect(faults_of(&checker, "nope", 2048, room).places_used == 0, "no JSON has no places");
  }
  order_free(&checker);
}

/* The request for memory whose number is N is refused: nodes and places are the right ones, or there are none. */
static void try_places_memory(void) {
  order_checker checker = ORDER_CHECKER_EMPTY;
  faults right = faults_of(&checker, PLACED, 2048, 4);
  order_free(&checker);
  for (long n = 1;; n++) {
    long before = blocks;
    requests = 0;
    refused = n;
    faults got = faults_of(&checker, PLACED, 2048, 4);
    bool was_refused = requests >= n;
    refused = 0;
    bool is_right = got.status == ORDER_FAULTS && got.used == right.used && !memcmp(got.places, PLACES, sizeof PLACES);
    bool is_none = got.status == ORDER_MEMORY && !got.len && !got.used && !got.texts_used && !got.places_used;
    expect(is_right || (was_refused && is_none), "a refused request gives the right places or ORDER_MEMORY");
    order_free(&checker);
    expect(blocks == before, "no block is left by places");
    if (!was_refused) return;
  }
}
