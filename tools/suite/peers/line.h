/* Lines of the suite for runners in C: fields between tabs, in which \xHH is a byte and \- an absent component. */
#ifndef LINE_H
#define LINE_H
#include <stdbool.h>
#include <stdio.h>
#include <stdlib.h>
#include <string.h>

enum { FIELDS = 12 };

/* A field, decoded in place, with a zero byte at its end. A change of an edit begins with "=". */
struct field {
  char *text;
  size_t len;
  bool present;
};

static inline void decode_field(struct field *field) {
  char *out = field->text;
  field->present = strcmp(field->text, "\\-") != 0 && strcmp(field->text, "=\\-") != 0;
  for (const char *in = field->text; *in != 0; out++) {
    bool escaped = in[0] == '\\' && in[1] == 'x';
    char digits[3] = {0};
    if (escaped) memcpy(digits, in + 2, 2);
    *out = escaped ? (char)strtol(digits, NULL, 16) : *in;
    in += escaped ? 4 : 1;
  }
  *out = 0;
  field->len = (size_t)(out - field->text);
}

/* Reads a line into fields, the first of which is the chapter; returns how many there are, or 0 at the end. */
static inline size_t read_fields(char **line, size_t *room, struct field *fields) {
  ssize_t len = getline(line, room, stdin);
  if (len <= 0) return 0;
  if ((*line)[len - 1] == '\n') (*line)[len - 1] = 0;
  size_t count = 0;
  for (char *rest = *line; rest != NULL && count < FIELDS; count++) fields[count].text = strsep(&rest, "\t");
  for (size_t index = 0; index < count; index++) decode_field(&fields[index]);
  return count;
}

static inline void print_bytes(const char *text, size_t len) {
  for (size_t index = 0; index < len; index++) {
    unsigned char byte = (unsigned char)text[index];
    if (byte >= 0x20 && byte < 0x7f && byte != '\\') putchar(byte);
    else printf("\\x%02x", byte);
  }
}

static inline void print_field(const char *text) {
  if (text == NULL) fputs("\\-", stdout);
  else print_bytes(text, strlen(text));
}

/* Whether a field has a zero byte, so that no string of C holds it. */
static inline bool has_zero(const struct field *field) { return strlen(field->text) != field->len; }
#endif
