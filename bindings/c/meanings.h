/* The rows of bindings/rows.tsv, which all languages share, for C and C++. */
#include "uriparse.h"

#include <stdio.h>
#include <string.h>

/* A field, whose "\xHH" stand for bytes. `at` is NULL if it is absent. */
struct field {
  const char *at;
  size_t len;
};

static const struct field no_field = {NULL, 0};

struct meaning {
  char line[400];
  char copy[400];
  const char *call;
  struct field values[4]; /* after the last one `at` is NULL */
  struct field answer;    /* of an error "! CODE component argument place" */
};

static const struct {
  uint32_t code;
  const char *name;
} code_names[] = {
    /* codes.tsv: names */
    {URIPARSE_NO_SCHEME, "NO_SCHEME"},
    {URIPARSE_COLON_IN_SEGMENT, "COLON_IN_SEGMENT"},
    {URIPARSE_TOO_MANY_SEGMENTS, "TOO_MANY_SEGMENTS"},
    {URIPARSE_TWO_SLASHES, "TWO_SLASHES"},
    {URIPARSE_MISSING_HOST, "MISSING_HOST"},
    {URIPARSE_BAD_NAMES, "BAD_NAMES"},
    {URIPARSE_NO_PAIRS, "NO_PAIRS"},
    {URIPARSE_USERNAME_COLON, "USERNAME_COLON"},
    {URIPARSE_USERNAME_BYTE, "USERNAME_BYTE"},
    {URIPARSE_USERNAME_ESCAPE, "USERNAME_ESCAPE"},
    {URIPARSE_PASSWORD_BYTE, "PASSWORD_BYTE"},
    {URIPARSE_PASSWORD_ESCAPE, "PASSWORD_ESCAPE"},
    {URIPARSE_HOST_BYTE, "HOST_BYTE"},
    {URIPARSE_HOST_IPV6_BYTE, "HOST_IPV6_BYTE"},
    {URIPARSE_HOST_IPV6_FORM, "HOST_IPV6_FORM"},
    {URIPARSE_HOST_FUTURE_BYTE, "HOST_FUTURE_BYTE"},
    {URIPARSE_HOST_FUTURE_FORM, "HOST_FUTURE_FORM"},
    {URIPARSE_PORT_BYTE, "PORT_BYTE"},
    {URIPARSE_PORT_RANGE, "PORT_RANGE"},
    {URIPARSE_PATH_BYTE, "PATH_BYTE"},
    {URIPARSE_PATH_ESCAPE, "PATH_ESCAPE"},
    {URIPARSE_QUERY_BYTE, "QUERY_BYTE"},
    {URIPARSE_QUERY_ESCAPE, "QUERY_ESCAPE"},
    {URIPARSE_FRAGMENT_BYTE, "FRAGMENT_BYTE"},
    {URIPARSE_FRAGMENT_ESCAPE, "FRAGMENT_ESCAPE"},
    {URIPARSE_SCHEME_EMPTY, "SCHEME_EMPTY"},
    {URIPARSE_SCHEME_BYTE, "SCHEME_BYTE"},
    {URIPARSE_SCHEME_LETTER, "SCHEME_LETTER"},
    {URIPARSE_NO_TARGET, "NO_TARGET"},
    /* codes.tsv: end */
};

static const char *const component_names[] = {"", "username", "password", "host", "port", "path", "query", "fragment", "scheme"};
enum { CODE_NAMES = sizeof code_names / sizeof code_names[0] };

/* Writes an error as a row has it. The argument and the place are -1 for "-". */
static int error_row(char *out, size_t room, uint32_t code, int argument, long place) {
  const uint32_t component = uriparse_error_component(code) / 0x10;
  const char *name = "?";
  char words[2][24] = {"-", "-"};
  for (size_t i = 0; i < CODE_NAMES; i++) {
    if (code_names[i].code == (code & ~(0u | URIPARSE_IN_BASE))) {
      name = code_names[i].name;
    }
  }
  if (argument >= 0) {
    snprintf(words[0], sizeof words[0], "%d", argument);
  }
  if (place >= 0) {
    snprintf(words[1], sizeof words[1], "%ld", place);
  }
  return snprintf(out, room, "! %s %s %s %s", name, component_names[component], words[0], words[1]);
}

static struct field field_of(char *text) {
  struct field found = {text, 0};
  unsigned char byte;
  if (strcmp(text, "\\N") == 0) {
    return no_field;
  }
  for (const char *in = text; *in != '\0'; in++) {
    if (in[0] == '\\' && in[1] == 'x' && sscanf(in + 2, "%2hhx", &byte) == 1) {
      memcpy(text + found.len++, &byte, 1);
      in += 3;
    } else {
      text[found.len++] = *in;
    }
  }
  return found;
}

/* Reads the next row, and returns whether there is one. */
static int read_meaning(FILE *file, struct meaning *row) {
  do {
    if (fgets(row->line, sizeof row->line, file) == NULL) {
      return 0;
    }
  } while (row->line[0] == '#' || row->line[0] == '\n');
  row->line[strcspn(row->line, "\n")] = '\0';
  strcpy(row->copy, row->line);
  char *fields[6] = {row->copy};
  int count = 1;
  for (char *in = row->copy; *in != '\0' && count < 6; in++) {
    if (*in == '\t') {
      *in = '\0';
      fields[count++] = in + 1;
    }
  }
  row->call = fields[0];
  for (int i = 0; i < 4; i++) {
    row->values[i] = i + 2 < count ? field_of(fields[i + 1]) : no_field;
  }
  row->answer = field_of(fields[count - 1]);
  return 1;
}
