/* The suite's answers by the library for C, a line for a line. */
#define _GNU_SOURCE
#include "peers/line.h"
#include <uriparse.h>

enum { ROOM = 1 << 16 };

static const char *component_name(uint32_t code) {
  switch (uriparse_error_component(code)) {
  case URIPARSE_USERNAME: return "username";
  case URIPARSE_PASSWORD: return "password";
  case URIPARSE_HOST: return "host";
  case URIPARSE_PORT: return "port";
  case URIPARSE_SEGMENT: return "path";
  case URIPARSE_QUERY: return "query";
  case URIPARSE_FRAGMENT: return "fragment";
  case URIPARSE_SCHEME: return "scheme";
  default: return "none";
  }
}

static void print_span(const char *text, struct uriparse_span span, char end) {
  if (span.present) print_bytes(text + span.begin, span.end - span.begin);
  else print_field(NULL);
  putchar(end);
}

static void print_reading(const struct field *input) {
  struct uriparse_parts parts;
  size_t place;
  uint32_t code = uriparse_parse(input->text, input->len, &parts);
  if (code != URIPARSE_OK) {
    if (uriparse_first_fault(input->text, input->len, &place) != code) exit(1);
    printf("!0\t%s\t%zu\n", component_name(code), place);
    return;
  }
  struct uriparse_span user = parts.username;
  if (parts.password.present) user.end = parts.password.end;
  static const char *const kinds[] = {[URIPARSE_NO_HOST] = "\\-", [URIPARSE_HOST_NAME] = "name", [URIPARSE_HOST_IPV4] = "ipv4", [URIPARSE_HOST_IPV6] = "ipv6",
                                      [URIPARSE_HOST_FUTURE] = "ipvfuture"};
  putchar('=');
  print_span(input->text, parts.scheme, '\t');
  print_span(input->text, user, '\t');
  print_span(input->text, parts.host, '\t');
  print_span(input->text, parts.port, '\t');
  print_span(input->text, parts.path, '\t');
  print_span(input->text, parts.query, '\t');
  print_span(input->text, parts.fragment, '\t');
  puts(kinds[parts.host_kind]);
}

/* The input that an error of two strings is about. */
static void print_rejection(uint32_t code, unsigned in_base, unsigned otherwise) {
  printf("!%u\t%s\n", code & URIPARSE_IN_BASE ? in_base : otherwise, component_name(code & ~(uint32_t)URIPARSE_IN_BASE));
}

static void print_equality(const struct field *left, const struct field *right) {
  bool equal = false;
  int32_t order = 0;
  uint32_t code = uriparse_equal(left->text, left->len, right->text, right->len, &equal);
  struct uriparse_parts parts;
  if (code != URIPARSE_OK) print_rejection(code, 1, uriparse_parse(left->text, left->len, &parts) == URIPARSE_OK);
  else if (uriparse_compare(left->text, left->len, right->text, right->len, &order) != URIPARSE_OK) exit(1);
  else printf("=%s\t%d\n", equal ? "true" : "false", (int)order);
}

/* A text that was written, or its error. */
static void print_result(uint32_t code, const char *out, size_t needed, unsigned in_base, unsigned otherwise) {
  if (code != URIPARSE_OK) print_rejection(code, in_base, otherwise);
  else putchar('='), print_bytes(out, needed), putchar('\n');
}

static void print_edit(const struct field *input, const struct field *fields, char *out) {
  static char values[ROOM];
  struct uriparse_changes changes;
  memset(&changes, 0, sizeof changes);
  struct uriparse_value *const each[] = {&changes.scheme, &changes.username, &changes.password, &changes.host, &changes.port, &changes.path,
                                         &changes.query, &changes.fragment};
  size_t used = 0, needed = 0;
  for (size_t index = 0; index < 8; index++) {
    if (fields[index].len == 0) continue;
    size_t len = fields[index].present ? fields[index].len - 1 : 0;
    memcpy(values + used, fields[index].text + 1, len);
    *each[index] = (struct uriparse_value){used, used + len, fields[index].present ? URIPARSE_SET : URIPARSE_REMOVE};
    used += len;
  }
  uint32_t code = uriparse_change(input->text, input->len, &changes, values, used, out, ROOM, &needed);
  print_result(code, out, needed, 0, 0);
}

static void answer(const char *chapter, const struct field *inputs) {
  static char out[ROOM];
  const struct field *one = &inputs[0], *two = &inputs[1];
  size_t needed = 0;
  bool within = false;
  uint32_t code;
  if (strcmp(chapter, "reading") == 0) print_reading(one);
  else if (strcmp(chapter, "equality") == 0) print_equality(one, two);
  else if (strcmp(chapter, "edits") == 0) print_edit(one, inputs + 1, out);
  else if (strcmp(chapter, "within") == 0) {
    code = uriparse_is_within(one->text, one->len, two->text, two->len, &within);
    if (code != URIPARSE_OK) print_rejection(code, 1, 0);
    else printf("=%s\n", within ? "true" : "false");
  } else if (strcmp(chapter, "normal") == 0) {
    code = uriparse_normalize(one->text, one->len, out, ROOM, &needed);
    print_result(code, out, needed, 0, 0);
  } else {
    code = strcmp(chapter, "resolution") == 0 ? uriparse_resolve(one->text, one->len, two->text, two->len, out, ROOM, &needed)
                                              : uriparse_relativize(one->text, one->len, two->text, two->len, out, ROOM, &needed);
    print_result(code, out, needed, 0, 1);
  }
}

int main(void) {
  struct field fields[FIELDS];
  char *line = NULL;
  size_t room = 0;
  while (read_fields(&line, &room, fields) > 0) answer(fields[0].text, fields + 1);
  free(line);
  return 0;
}
