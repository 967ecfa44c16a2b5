/* Prints the components of each argument, and its target against the first one. */
#include "uriparse.h"

#include <stdio.h>
#include <string.h>

static void show(const char *name, const char *text, struct uriparse_span span) {
  if (span.present) {
    printf("  %-9s %.*s\n", name, (int)(span.end - span.begin), text + span.begin);
  }
}

static void show_target(const char *base, const char *text) {
  uint8_t target[256];
  size_t needed;
  uint32_t code = uriparse_resolve(base, strlen(base), text, strlen(text), target, sizeof target, &needed);
  if (code == URIPARSE_OK) {
    printf("  target    %.*s\n", (int)needed, (const char *)target);
  } else {
    printf("  no target: %s\n", uriparse_error_text(code));
  }
}

int main(int argc, char **argv) {
  for (int i = 1; i < argc; i++) {
    const char *text = argv[i];
    struct uriparse_parts parts;
    uint32_t code = uriparse_parse(text, strlen(text), &parts);
    printf("%s\n", text);
    if (code != URIPARSE_OK) {
      printf("  rejected: %s\n", uriparse_error_text(code));
      continue;
    }
    show("scheme", text, parts.scheme);
    show("username", text, parts.username);
    show("host", text, parts.host);
    show("port", text, parts.port);
    show("path", text, parts.path);
    show("query", text, parts.query);
    show("fragment", text, parts.fragment);
    show_target(argv[1], text);
  }
  return 0;
}
