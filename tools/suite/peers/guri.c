/* Answers of GLib's GUri, a line for a line. It has no equality, normal form or relative reference. */
#define _GNU_SOURCE
#include "line.h"
#include <glib.h>

/* Percent-encoding stays, in the host too. */
static const GUriFlags AS_SPELLED = G_URI_FLAGS_ENCODED | G_URI_FLAGS_NON_DNS;

/* GUri leaves out the brackets of an address, which is the host that has a colon. */
static void print_host(const char *host) {
  bool has_brackets = host != NULL && strchr(host, ':') != NULL;
  if (has_brackets) putchar('[');
  print_field(host);
  if (has_brackets) putchar(']');
}

static void answer_reading(const char *text) {
  char *scheme, *userinfo, *host, *path, *query, *fragment;
  int port;
  if (!g_uri_split(text, AS_SPELLED, &scheme, &userinfo, &host, &port, &path, &query, &fragment, NULL)) {
    puts("!");
    return;
  }
  putchar('=');
  print_field(scheme), putchar('\t');
  print_field(userinfo), putchar('\t');
  print_host(host), putchar('\t');
  if (port < 0) print_field(NULL);
  else printf("%d", port);
  putchar('\t');
  print_field(path), putchar('\t');
  print_field(query), putchar('\t');
  print_field(fragment), putchar('\n');
  g_free(scheme), g_free(userinfo), g_free(host), g_free(path), g_free(query), g_free(fragment);
}

static void answer_resolution(const char *base, const char *reference) {
  char *target = g_uri_resolve_relative(base, reference, AS_SPELLED, NULL);
  if (target == NULL) puts("!");
  else putchar('='), print_field(target), putchar('\n');
  g_free(target);
}

/* GLib writes a message where a target has no string; the null pointer tells that too. */
static void stay_silent(const gchar *domain, GLogLevelFlags level, const gchar *message, gpointer data) {
  (void)domain, (void)level, (void)message, (void)data;
}

int main(void) {
  g_log_set_default_handler(stay_silent, NULL);
  struct field fields[FIELDS];
  char *line = NULL;
  size_t room = 0, count;
  while ((count = read_fields(&line, &room, fields)) > 0) {
    bool is_reading = strcmp(fields[0].text, "reading") == 0, is_resolution = strcmp(fields[0].text, "resolution") == 0;
    if (is_reading && !has_zero(&fields[1])) answer_reading(fields[1].text);
    else if (is_resolution && !has_zero(&fields[1]) && !has_zero(&fields[2])) answer_resolution(fields[1].text, fields[2].text);
    else puts("?");
  }
  free(line);
  return 0;
}
