/* The heap of the WebAssembly module, and the calls of its JavaScript.
 *
 * Each call begins with an empty heap, so none fails for what an earlier one left. Within a call a block that is freed serves the
 * next one of its class, and the last block grows where it is. Sizes and addresses are doubles, the numbers of JavaScript. `version` is
 * that of these calls. */
typedef unsigned long size;
typedef unsigned char byte;
// Those of order.h, which needs headers of C.
#ifdef ORDER_TAKES_SCHEMA
typedef struct { void *room; _Bool has_room; void *schema_room; _Bool has_schema_room; } checker;
#define RULES const byte *schema, size schema_len,
#define BY rules, rules_len,
enum { VERSION = 103 };
static byte *rules;
static size rules_len;
#else
typedef struct { void *room; _Bool has_room; } checker;
#define RULES
#define BY
enum { VERSION = 3 };
#endif
typedef struct { byte kind, in_texts; unsigned len; size value; } node;
typedef struct { size line, column; } place;

// Above the byte of a status other bits may be, so each is cut by `STATUS`.
#define STATUS 255u
unsigned order_check(RULES const byte *body, size body_len, size most, const byte *language, size language_len, byte *out, size out_len,
                     size *len);
unsigned order_faults_with(checker *in, RULES const byte *body, size body_len, size most, const byte *language, size language_len, byte *out,
                           size out_len, size *len, node *nodes, size nodes_len, size *nodes_used, byte *texts, size texts_len,
                           size *texts_used, place *places, size places_len, size *places_used);
unsigned order_is_valid(RULES const byte *body, size body_len);
unsigned order_value_with(checker *in, RULES const byte *body, size body_len, node *nodes, size nodes_len, size *nodes_used, byte *texts,
                          size texts_len, size *texts_used);

#define PAGE 65536ul
// No block has so many bytes.
#define MOST (1ul << 40)
enum { UNIT = 16, CLASSES = 256, OUT = 65536, MEMORY = 3 };

// The head of a block of so many units of 16 bytes.
typedef struct block { size units; struct block *next; } block;
// What the library takes for a pointer that may lack.
typedef struct { size is_there; void *at; } tried;

extern byte __heap_base;
static byte *top, *end, *input, *out;
static size input_len, details_len, nodes_len, texts_len, places_len;
static block *freed[CLASSES];
static checker kept;
// Of a value.
static node *nodes;
static byte *texts;
// Of faults.
static place *places;

static byte *after(block *it) { return (byte *)(it + 1) + it->units * UNIT; }

// The class of a size, and how many units its blocks have: 5 to 8 times a power of two, so that at most a fifth of one lies idle.
static int class_of(size bytes, size *units) {
  size last = bytes ? (bytes - 1) / UNIT : 0;
  int shift = last < 8 ? 0 : 61 - __builtin_clzl(last);
  *units = ((last >> shift) + 1) << shift;
  return 4 * shift + (int)(last >> shift);
}

// Whether the memory reaches so far. It grows by a megabyte at least, where the module may have that.
static int reaches(byte *to) {
  if (to <= end) return 1;
  size lacks = (size)(to - end + PAGE - 1) / PAGE;
  for (size more = lacks < 16 ? 16 : lacks;; more = lacks) {
    // A refusal is -1, or 2^32 - 1 where the memory was lowered to 32 bits.
    if ((int)__builtin_wasm_memory_grow(0, more) != -1) {
      end += more * PAGE;
      return 1;
    }
    if (more == lacks) return 0;
  }
}

static void *get(size bytes) {
  size units;
  if (bytes > MOST) return 0;
  int class = class_of(bytes, &units);
  block *it = freed[class];
  if (it) {
    freed[class] = it->next;
    return it + 1;
  }
  it = (block *)top;
  if (!reaches((byte *)(it + 1) + units * UNIT)) return 0;
  it->units = units;
  top = after(it);
  return it + 1;
}

void rattle_dealloc(void *at) {
  block *it = (block *)at - 1;
  size units;
  int class = class_of(it->units * UNIT, &units);
  if (after(it) == top) {
    top = (byte *)it;
  } else {
    it->next = freed[class];
    freed[class] = it;
  }
}

static tried given(void *at) { return (tried){at != 0, at ? at : &top}; }
tried rattle_alloc(size bytes, size align) { return given(get(bytes)); }

tried rattle_realloc(void *at, size old, size bytes, size align) {
  block *it = (block *)at - 1;
  size units, has = it->units * UNIT;
  if (bytes <= has) return given(at);
  class_of(bytes, &units);
  if (bytes <= MOST && after(it) == top && reaches((byte *)at + units * UNIT)) {
    it->units = units;
    top = after(it);
    return given(at);
  }
  void *to = get(bytes);
  if (to) {
    __builtin_memcpy(to, at, has);
    rattle_dealloc(at);
  }
  return given(to);
}

// Empties the heap, and gives room for a body and the tag of a language behind it: its address, or 0.
double begin(double bytes) {
  top = (byte *)(((size)&__heap_base + UNIT - 1) / UNIT * UNIT);
  end = (byte *)(__builtin_wasm_memory_size(0) * PAGE);
  __builtin_memset(freed, 0, sizeof freed);
  details_len = places_len = 0;
  kept = (checker){0};
  input = bytes <= MOST ? get((size)bytes) : 0;
  return (double)(size)input;
}

#ifdef ORDER_TAKES_SCHEMA
// Gives room for the schema of a call, behind `begin`: its address, or 0.
double schema(double bytes) {
  rules_len = (size)bytes;
  rules = get(rules_len);
  return (double)(size)rules;
}
#endif

// Checks a body once, with the tag behind it, and returns a status. Places are looked for where there is room for one.
static int check_in(size body_len, size language_len, size most, size room, size place_room) {
  const byte *language = input + body_len;
  size no_nodes, no_texts;
  out = get(room);
  places = get(place_room * sizeof(place));
  if (!out || !places) return MEMORY;
  if (!place_room) return STATUS & order_check(BY input, body_len, most, language, language_len, out, room, &details_len);
  return STATUS & order_faults_with(&kept, BY input, body_len, most, language, language_len, out, room, &details_len, (node *)top, 0, &no_nodes,
                                    top, 0, &no_texts, places, place_room, &places_len);
}

// Checks what lies in the room, and returns a status. Where there is more than there was room for, it checks once more. With a
// `place_room` of 0 there are no places.
int check(double body_len, double language_len, double most, double place_room) {
  size all = most < 0x1p63 ? (size)most : ~0ul, room = OUT, spots = (size)place_room;
  for (;;) {
    int status = check_in((size)body_len, (size)language_len, all, room, spots);
    if (status == MEMORY || (details_len <= room && places_len <= spots)) return status;
    if (details_len > room) room = details_len;
    if (places_len > spots) spots = places_len;
  }
}

int is_valid(double body_len) { return STATUS & order_is_valid(BY input, (size)body_len); }

// Judges what lies in the room, and returns a status. Of a valid body there are its nodes then. Few bodies have more than one in
// four bytes: those are judged once more. What its texts have with an escape is no longer than the body.
int value(double body_len) {
  input_len = (size)body_len;
  texts = get(input_len);
  for (size room = input_len / 4 + 1; texts; room = nodes_len) {
    nodes = get(room * sizeof(node));
    if (!nodes) return MEMORY;
    int status = STATUS & order_value_with(&kept, BY input, input_len, nodes, room, &nodes_len, texts, input_len, &texts_len);
    if (nodes_len <= room) return status;
    rattle_dealloc(nodes);
  }
  return MEMORY;
}

double body(void) { return (double)(size)input; }
double body_length(void) { return (double)input_len; }
double details(void) { return (double)(size)out; }
double length(void) { return (double)details_len; }
double nodes_at(void) { return (double)(size)nodes; }
double nodes_length(void) { return (double)nodes_len; }
double places_at(void) { return (double)(size)places; }
double places_length(void) { return (double)places_len; }
double texts_at(void) { return (double)(size)texts; }
double texts_length(void) { return (double)texts_len; }
int version(void) { return VERSION; }
