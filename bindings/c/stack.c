/* The most stack that each call takes: each runs on a stack that is painted before. Prints it for each call; the status
 * is 0 if it is at most what `uriparse.h` says. */
#define _XOPEN_SOURCE 600
#define ROOM 3000000
#include "calls.h"

#include <stdio.h>
#include <ucontext.h>

/* How long the long texts are. */
#ifndef LONG
#define LONG 400000
#endif

enum { STACK = 1 << 16, PAINT = 0xa5, SAID = 6144, MIDDLE = 1000 };

struct text {
  const char *bytes;
  size_t len;
};

static ucontext_t caller;
static uint8_t stack[STACK];
static const uint8_t *top;
static int which;
static struct text base, text;
static struct written to;

/* It is called on the painted stack. Its own frame is counted, too. */
static void run(void) {
  top = __builtin_frame_address(0);
  call(which, base.bytes, base.len, text.bytes, text.len, &to);
}

static size_t depth(void) {
  ucontext_t callee;
  memset(stack, PAINT, STACK);
  getcontext(&callee);
  callee.uc_stack.ss_sp = stack;
  callee.uc_stack.ss_size = STACK;
  callee.uc_link = &caller;
  makecontext(&callee, run, 0);
  swapcontext(&caller, &callee);
  const uint8_t *low = stack;
  while (*low == PAINT) {
    low++;
  }
  return (size_t)(top - low);
}

/* A text that starts with `head`, repeats `piece` up to some `most` bytes, and ends with `tail`. */
static struct text repeat(char *out, size_t most, const char *head, const char *piece, const char *tail) {
  size_t len = strlen(head);
  memcpy(out, head, len);
  while (len + strlen(piece) <= most) {
    memcpy(out + len, piece, strlen(piece));
    len += strlen(piece);
  }
  memcpy(out + len, tail, strlen(tail));
  return (struct text){out, len + strlen(tail)};
}

int main(void) {
  static const char *const rows[] = {
      "", "g", "..", "?q", "#f", "//", "s:", "a:b@c", "http://a/b/c/d;p?q", "HTTP://U%7e:P%7E@H%41:080/%7e/.././/a?%7e#%7e",
      "x-unknown+:.//..//b", "//[1:2:3:4:5:6:1.2.3.4]:1/", "http://[0:0::ffff:255.255.255.255]:65535/x?y#z", "//[::]", "//[v1.X:%]/",
      "S://[V1F.a:b]/./..", "//1.2.3.4", "//%31.2.3.4", "//h:65536/", "//h:8x", "//u:p[@h", "//[1:2]/", "//[::1.2.3.400]", "1:2", "/a b",
      "/%g0", "?^", "?%", "#^", "#%f", "a?b#c d", "..//c", "s:/.//c", "mailto:a%20b@c"};
  static const char *const long_rows[][3] = {
      {"", "a/", "b"}, {"http://h/", "a/../", "b?q#f"}, {"s:", "./..//", "%7e/."}, {"../", "../", "g"}, {"//", "%41a", ":1/x"},
      {"http://u", "%7e", ":p@h/"}, {"//u:", "p%4a", "@h"}, {"?", "a=%7e&", "#f"}, {"#", "%c3%bc", "x"}, {"x", "y-", "://[::1]/.."},
      {"//h:", "0", "80/"}, {"//[v1.", "a:", "]/"}, {"/", "a%2f\xc3\xbc ", "?#["}, {"http://h/", "%zz", "#"}, {"s://h/", "\\^", "?"}, {"/", "/", ""}};
  enum { ROWS = sizeof rows / sizeof rows[0], LONG_ROWS = sizeof long_rows / sizeof long_rows[0], TEXTS = ROWS + 2 * LONG_ROWS };
  static char room[2 * LONG_ROWS][LONG + 100];
  static struct text texts[TEXTS];
  for (size_t i = 0; i < TEXTS; i++) {
    if (i < ROWS) {
      texts[i] = (struct text){rows[i], strlen(rows[i])};
    } else {
      const char *const *row = long_rows[(i - ROWS) / 2];
      texts[i] = repeat(room[i - ROWS], i % 2 ? MIDDLE : LONG, row[0], row[1], row[2]);
    }
  }
  size_t most = 0;
  for (which = 0; which < CALLS; which++) {
    size_t largest = 0;
    for (size_t i = 0; i < (reads_base[which] ? TEXTS : 1); i++) {
      for (size_t j = 0; j < TEXTS; j++) {
        base = texts[i];
        text = texts[j];
        size_t taken = depth();
        largest = taken > largest ? taken : largest;
      }
    }
    printf("%s %zu, ", names[which], largest);
    most = largest > most ? largest : most;
  }
  printf("most %zu of %d bytes of stack\n", most, SAID);
  return most > SAID;
}
