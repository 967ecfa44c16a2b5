/* Answers of uriparser, a line for a line. */
#define _GNU_SOURCE
#include "line.h"
#include <uriparser/Uri.h>

static void print_range(const UriTextRangeA *range) {
  if (range->first == NULL) print_field(NULL);
  else print_bytes(range->first, (size_t)(range->afterLast - range->first));
}

static void print_path(const UriUriA *uri) {
  bool has_host = uri->hostText.first != NULL;
  for (const UriPathSegmentA *one = uri->pathHead; one != NULL; one = one->next) {
    if (has_host || uri->absolutePath || one != uri->pathHead) putchar('/');
    print_bytes(one->text.first, (size_t)(one->text.afterLast - one->text.first));
  }
  if (uri->pathHead == NULL && uri->absolutePath) putchar('/');
}

static void print_reading(const UriUriA *uri) {
  bool has_brackets = uri->hostData.ip6 != NULL || uri->hostData.ipFuture.first != NULL;
  putchar('=');
  print_range(&uri->scheme), putchar('\t');
  print_range(&uri->userInfo), putchar('\t');
  if (has_brackets) putchar('[');
  print_range(&uri->hostText);
  fputs(has_brackets ? "]\t" : "\t", stdout);
  print_range(&uri->portText), putchar('\t');
  print_path(uri), putchar('\t');
  print_range(&uri->query), putchar('\t');
  print_range(&uri->fragment), putchar('\n');
}

static void print_uri(const UriUriA *uri, int status) {
  int needed = 0;
  if (status != URI_SUCCESS || uriToStringCharsRequiredA(uri, &needed) != URI_SUCCESS) {
    puts("!");
    return;
  }
  char *text = malloc((size_t)needed + 1);
  if (text == NULL || uriToStringA(text, uri, needed + 1, NULL) != URI_SUCCESS) exit(1);
  putchar('='), print_field(text), putchar('\n');
  free(text);
}

static void answer_two(const char *chapter, const UriUriA *base, const UriUriA *other) {
  UriUriA result;
  memset(&result, 0, sizeof result);
  bool is_resolution = strcmp(chapter, "resolution") == 0;
  int status = is_resolution ? uriAddBaseUriA(&result, other, base) : uriRemoveBaseUriA(&result, other, base, URI_FALSE);
  print_uri(&result, status);
  uriFreeUriMembersA(&result);
}

static void answer(const char *chapter, struct field *texts, size_t count) {
  UriUriA read[2];
  size_t done = 0;
  bool is_accepted = true;
  for (; done < count && is_accepted; done += is_accepted) {
    is_accepted = uriParseSingleUriExA(&read[done], texts[done].text, texts[done].text + texts[done].len, NULL) == URI_SUCCESS;
  }
  if (!is_accepted) puts("!");
  else if (count == 2) answer_two(chapter, &read[0], &read[1]);
  else if (strcmp(chapter, "reading") == 0) print_reading(&read[0]);
  else print_uri(&read[0], uriNormalizeSyntaxA(&read[0]));
  while (done > 0) uriFreeUriMembersA(&read[--done]);
}

int main(void) {
  struct field fields[FIELDS];
  char *line = NULL;
  size_t room = 0, count;
  while ((count = read_fields(&line, &room, fields)) > 0) {
    const char *chapter = fields[0].text;
    bool is_one = strcmp(chapter, "reading") == 0 || strcmp(chapter, "normal") == 0;
    bool is_two = strcmp(chapter, "resolution") == 0 || strcmp(chapter, "relative") == 0;
    if (is_one || is_two) answer(chapter, fields + 1, is_two ? 2 : 1);
    else puts("?");
  }
  free(line);
  return 0;
}
