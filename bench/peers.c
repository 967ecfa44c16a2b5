/* Times reading, normalizing and resolving next to other libraries for C, over the links of a file, one a line:
 *
 *   python3 bindings/sqlite/links.py 10000 > links
 *   cc -O2 -o peers bench/peers.c $(pkg-config --cflags --libs uriparse liburiparser glib-2.0 libcurl)
 *   ./peers links
 *
 * It prints lines for bench/results.tsv: a job, a library and the nanoseconds of the processor for one link, the median of 41
 * turns, in each of which every call goes once over all links. What it resolves is `..` and what follows a link's host. */
#define _GNU_SOURCE
#include <curl/curl.h>
#include <glib.h>
#include <stdio.h>
#include <stdlib.h>
#include <string.h>
#include <time.h>
#include <uriparse.h>
#include <uriparser/Uri.h>

enum { TURNS = 41, MOST = 100000, ROOM = 8192 };

static const char BASE[] = "https://www.example.com/a/b/c/d;p?q";
static char *links[MOST], *references[MOST];
static size_t link_lengths[MOST], reference_lengths[MOST];
static size_t count;

static size_t read_here(void) {
  size_t done = 0;
  for (size_t i = 0; i < count; i++) {
    struct uriparse_parts parts;
    done += uriparse_parse(links[i], link_lengths[i], &parts) == URIPARSE_OK;
  }
  return done;
}

static size_t read_uriparser(void) {
  size_t done = 0;
  for (size_t i = 0; i < count; i++) {
    UriUriA uri;
    const char *fault;
    if (uriParseSingleUriExA(&uri, links[i], links[i] + link_lengths[i], &fault) == URI_SUCCESS) {
      done++;
      uriFreeUriMembersA(&uri);
    }
  }
  return done;
}

static size_t read_glib(void) {
  size_t done = 0;
  for (size_t i = 0; i < count; i++) {
    GUri *uri = g_uri_parse(links[i], G_URI_FLAGS_ENCODED, NULL);
    if (uri) {
      done++;
      g_uri_unref(uri);
    }
  }
  return done;
}

static size_t read_curl(void) {
  size_t done = 0;
  CURLU *uri = curl_url();
  for (size_t i = 0; i < count; i++)
    done += curl_url_set(uri, CURLUPART_URL, links[i], CURLU_NON_SUPPORT_SCHEME) == CURLUE_OK;
  curl_url_cleanup(uri);
  return done;
}

static size_t normalize_here(void) {
  size_t done = 0, needed;
  char out[ROOM];
  for (size_t i = 0; i < count; i++)
    done += uriparse_normalize(links[i], link_lengths[i], out, ROOM, &needed) == URIPARSE_OK;
  return done;
}

static size_t normalize_uriparser(void) {
  size_t done = 0;
  char out[ROOM];
  for (size_t i = 0; i < count; i++) {
    UriUriA uri;
    const char *fault;
    if (uriParseSingleUriExA(&uri, links[i], links[i] + link_lengths[i], &fault) == URI_SUCCESS) {
      done += uriNormalizeSyntaxA(&uri) == URI_SUCCESS && uriToStringA(out, &uri, ROOM, NULL) == URI_SUCCESS;
      uriFreeUriMembersA(&uri);
    }
  }
  return done;
}

static size_t resolve_here(void) {
  size_t done = 0, needed;
  char out[ROOM];
  for (size_t i = 0; i < count; i++)
    done += uriparse_resolve(BASE, sizeof BASE - 1, references[i],
                             reference_lengths[i], out, ROOM, &needed) == URIPARSE_OK;
  return done;
}

static size_t resolve_uriparser(void) {
  size_t done = 0;
  char out[ROOM];
  for (size_t i = 0; i < count; i++) {
    UriUriA base, reference, target;
    const char *fault;
    uriParseSingleUriExA(&base, BASE, BASE + sizeof BASE - 1, &fault);
    if (uriParseSingleUriExA(&reference, references[i], references[i] + reference_lengths[i], &fault) == URI_SUCCESS) {
      if (uriAddBaseUriA(&target, &reference, &base) == URI_SUCCESS) {
        done += uriToStringA(out, &target, ROOM, NULL) == URI_SUCCESS;
        uriFreeUriMembersA(&target);
      }
      uriFreeUriMembersA(&reference);
    }
    uriFreeUriMembersA(&base);
  }
  return done;
}

static size_t resolve_glib(void) {
  size_t done = 0;
  for (size_t i = 0; i < count; i++) {
    char *target = g_uri_resolve_relative(BASE, references[i], G_URI_FLAGS_ENCODED, NULL);
    done += target != NULL;
    g_free(target);
  }
  return done;
}

static size_t resolve_curl(void) {
  size_t done = 0;
  for (size_t i = 0; i < count; i++) {
    CURLU *uri = curl_url();
    char *target = NULL;
    curl_url_set(uri, CURLUPART_URL, BASE, 0);
    if (curl_url_set(uri, CURLUPART_URL, references[i], 0) == CURLUE_OK)
      done += curl_url_get(uri, CURLUPART_URL, &target, 0) == CURLUE_OK;
    curl_free(target);
    curl_url_cleanup(uri);
  }
  return done;
}

static const struct {
  const char *job, *library;
  size_t (*run)(void);
} CALLS[] = {
    {"C: read, ns", "uriparse", read_here},
    {"C: read, ns", "uriparser", read_uriparser},
    {"C: read, ns", "GLib", read_glib},
    {"C: read, ns", "libcurl", read_curl},
    {"C: normalize, ns", "uriparse", normalize_here},
    {"C: normalize, ns", "uriparser", normalize_uriparser},
    {"C: resolve, ns", "uriparse", resolve_here},
    {"C: resolve, ns", "uriparser", resolve_uriparser},
    {"C: resolve, ns", "GLib", resolve_glib},
    {"C: resolve, ns", "libcurl", resolve_curl},
};
enum { CALL_COUNT = sizeof CALLS / sizeof *CALLS };

static double now(void) {
  struct timespec time;
  clock_gettime(CLOCK_PROCESS_CPUTIME_ID, &time);
  return (double)time.tv_sec * 1e9 + (double)time.tv_nsec;
}

static int compare(const void *left, const void *right) {
  double a = *(const double *)left, b = *(const double *)right;
  return (a > b) - (a < b);
}

static void read_links(FILE *file) {
  char *line = NULL;
  size_t room = 0;
  ssize_t length;
  while (count < MOST && (length = getline(&line, &room, file)) > 0) {
    line[length - 1] = 0;
    const char *path = strchr(strstr(line, "://") + 3, '/');
    links[count] = strdup(line);
    link_lengths[count] = (size_t)length - 1;
    reference_lengths[count] = (size_t)asprintf(&references[count], "..%s", path);
    count++;
  }
  free(line);
}

int main(int words, char **word) {
  static double times[CALL_COUNT][TURNS];
  FILE *file = words == 2 ? fopen(word[1], "r") : NULL;
  if (!file) {
    fprintf(stderr, "usage: peers FILE, with a link in each line\n");
    return 2;
  }
  read_links(file);
  fclose(file);
  for (int turn = 0; turn < TURNS; turn++)
    for (int call = 0; call < CALL_COUNT; call++) {
      double start = now();
      if (CALLS[call].run() != count) {
        fprintf(stderr, "%s, %s: not all links\n", CALLS[call].job, CALLS[call].library);
        return 1;
      }
      times[call][turn] = (now() - start) / (double)count;
    }
  for (int call = 0; call < CALL_COUNT; call++) {
    qsort(times[call], TURNS, sizeof(double), compare);
    printf("%s\t%s\t%.0f%s\n", CALLS[call].job, CALLS[call].library, times[call][TURNS / 2],
           strcmp(CALLS[call].library, "uriparse") ? "" : "\tours");
  }
  return 0;
}
