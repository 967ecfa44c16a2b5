/* Makes the links of a page absolute: rewrite BASE < PAGE. A link that is no URI stays. */
#include "uriparse.h"

#include <stdio.h>
#include <string.h>

int main(int count, char **words) {
  static char page[100000], escaped[3 * sizeof page], target[4 * sizeof page];
  if (count < 2 || fread(page, 1, sizeof page - 1, stdin) == sizeof page - 1) return 1;
  char *at = page, *link;
  while ((link = strstr(at, "href=\"")) != NULL) {
    link += strlen("href=\"");
    fwrite(at, 1, (size_t)(link - at), stdout);
    size_t len = strcspn(link, "\""), size;
    at = link + len;
    uint32_t code = uriparse_escape(link, len, escaped, sizeof escaped, &size);
    if (code == URIPARSE_OK) code = uriparse_resolve(words[1], strlen(words[1]), escaped, size, target, sizeof target, &size);
    fwrite(code ? link : target, 1, code ? len : size, stdout);
  }
  fputs(at, stdout);
  return 0;
}
