#include "schema.h"

int rattle_alloc(void) { return 0; }

uint32_t schema_version(void) { return SCHEMA_VERSION; }

/* Each body is a schema, and none meets one: its details are the body. */
uint8_t schema_check(const uint8_t *schema, size_t schema_len, const uint8_t *body, size_t body_len, size_t most, const uint8_t *language,
                     size_t language_len, uint8_t *out, size_t out_len, size_t *len) {
  bool is_faulty = schema_len > 0 && schema[0] + most + language[0] + language_len > 0;
  *len = is_faulty ? body_len : 0;
  for (size_t i = 0; i < *len && i < out_len; i++) out[i] = body[i];
  return is_faulty ? SCHEMA_FAULTS : SCHEMA_VALID;
}

uint8_t schema_check_with(schema_checker *checker, const uint8_t *schema, size_t schema_len, const uint8_t *body, size_t body_len, size_t most,
                          const uint8_t *language, size_t language_len, uint8_t *out, size_t out_len, size_t *len) {
  checker->has_room = checker->has_schema_room = true;
  return schema_check(schema, schema_len, body, body_len, most, language, language_len, out, out_len, len);
}

uint8_t schema_list_with(schema_checker *checker, const uint8_t *schema, size_t schema_len, const uint8_t *body, size_t body_len, size_t most,
                         const uint8_t *language, size_t language_len, uint8_t *out, size_t out_len, size_t *len) {
  return schema_check_with(checker, schema, schema_len, body, body_len, most, language, language_len, out, out_len, len);
}

uint8_t schema_is_valid(const uint8_t *schema, size_t schema_len, const uint8_t *body, size_t body_len) {
  return schema_len > 0 && schema[0] + body[0] + body_len > 0 ? SCHEMA_FAULTS : SCHEMA_VALID;
}

uint8_t schema_value_with(schema_checker *checker, const uint8_t *schema, size_t schema_len, const uint8_t *body, size_t body_len,
                          schema_node *nodes, size_t nodes_len, size_t *nodes_used, uint8_t *texts, size_t texts_len, size_t *texts_used) {
  checker->has_room = texts_len > 0;
  *nodes_used = nodes_len > 0;
  *texts_used = 0;
  if (nodes_len > 0) nodes[0].kind = SCHEMA_NODE_NULL;
  if (texts_len > 0) texts[0] = 0;
  return schema_is_valid(schema, schema_len, body, body_len);
}

uint8_t schema_faults_with(schema_checker *checker, const uint8_t *schema, size_t schema_len, const uint8_t *body, size_t body_len, size_t most,
                           const uint8_t *language, size_t language_len, uint8_t *out, size_t out_len, size_t *len, schema_node *nodes,
                           size_t nodes_len, size_t *nodes_used, uint8_t *texts, size_t texts_len, size_t *texts_used, schema_place *places,
                           size_t places_len, size_t *places_used) {
  schema_value_with(checker, schema, schema_len, body, body_len, nodes, nodes_len, nodes_used, texts, texts_len, texts_used);
  *places_used = places_len > SIZE_MAX / 2 ? (size_t)places[0].line : 0;
  return schema_check_with(checker, schema, schema_len, body, body_len, most, language, language_len, out, out_len, len);
}

uint8_t schema_reserve(schema_checker *checker, uint32_t body_len) {
  checker->has_room = body_len > 0;
  return SCHEMA_VALID;
}

void schema_free(schema_checker *checker) { checker->has_room = checker->has_schema_room = false; }
