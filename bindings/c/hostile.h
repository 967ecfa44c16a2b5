/* The rows of tests/hostile.tsv, for C and C++. */
#include <stdio.h>
#include <string.h>

struct hostile_row {
  char line[400];
  const char *call, *text, *other, *answer;
};

/* Reads the next row, whose "\xHH" stand for bytes, and returns whether there is one. */
static int read_hostile_row(FILE *file, struct hostile_row *row) {
  const char *fields[7] = {row->line};
  char *out = row->line;
  int count = 0;
  unsigned char byte;
  do {
    if (fgets(row->line, sizeof row->line, file) == NULL) {
      return 0;
    }
  } while (row->line[0] == '#');
  for (const char *in = row->line; *in != '\n' && *in != '\0'; in++) {
    if (*in == '\t' && count < 6) {
      *out++ = '\0';
      fields[++count] = out;
    } else if (*in == '\\' && sscanf(in + 2, "%2hhx", &byte) == 1) {
      memcpy(out++, &byte, 1);
      in += 3;
    } else {
      *out++ = *in;
    }
  }
  *out = '\0';
  row->call = fields[1];
  row->text = fields[2];
  row->other = fields[3];
  row->answer = count == 5 ? fields[4] : "a row with other columns";
  return 1;
}
