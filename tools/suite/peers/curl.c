/* Answers of libcurl's URL interface, a line for a line. It reads URLs with "://", and no other reference without a base. */
#define _GNU_SOURCE
#include "line.h"
#include <curl/curl.h>

enum { FLAGS = CURLU_NON_SUPPORT_SCHEME | CURLU_PATH_AS_IS };

static char *part_of(CURLU *url, CURLUPart part) {
  char *text = NULL;
  return curl_url_get(url, part, &text, 0) == CURLUE_OK ? text : NULL;
}

static void print_part(CURLU *url, CURLUPart part) {
  char *text = part_of(url, part);
  print_field(text);
  curl_free(text);
}

static void print_reading(CURLU *url) {
  char *user = part_of(url, CURLUPART_USER), *password = part_of(url, CURLUPART_PASSWORD);
  putchar('=');
  print_part(url, CURLUPART_SCHEME), putchar('\t');
  print_field(user);
  if (password != NULL) putchar(':'), print_field(password);
  putchar('\t');
  print_part(url, CURLUPART_HOST), putchar('\t');
  print_part(url, CURLUPART_PORT), putchar('\t');
  print_part(url, CURLUPART_PATH), putchar('\t');
  print_part(url, CURLUPART_QUERY), putchar('\t');
  print_part(url, CURLUPART_FRAGMENT), putchar('\n');
  curl_free(user), curl_free(password);
}

static void answer(struct field *texts, bool is_resolution) {
  CURLU *url = curl_url();
  /* Only without PATH_AS_IS are dot segments removed. */
  unsigned flags = is_resolution ? CURLU_NON_SUPPORT_SCHEME : FLAGS;
  bool is_accepted = curl_url_set(url, CURLUPART_URL, texts[0].text, flags) == CURLUE_OK
    && (!is_resolution || curl_url_set(url, CURLUPART_URL, texts[1].text, flags) == CURLUE_OK);
  if (!is_accepted) puts("!");
  else if (!is_resolution) print_reading(url);
  else putchar('='), print_part(url, CURLUPART_URL), putchar('\n');
  curl_url_cleanup(url);
}

int main(void) {
  struct field fields[FIELDS];
  char *line = NULL;
  size_t room = 0, count;
  while ((count = read_fields(&line, &room, fields)) > 0) {
    bool is_resolution = strcmp(fields[0].text, "resolution") == 0;
    bool is_asked = is_resolution || strcmp(fields[0].text, "reading") == 0;
    bool can_be = is_asked && strstr(fields[1].text, "://") != NULL && !has_zero(&fields[1]) && (!is_resolution || !has_zero(&fields[2]));
    if (can_be) answer(fields + 1, is_resolution);
    else puts("?");
  }
  free(line);
  return 0;
}
