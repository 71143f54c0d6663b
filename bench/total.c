// The total of examples/total in C, tuned by hand.
// usage: total INPUT OUTPUT
#include <fcntl.h>
#include <stdint.h>
#include <stdlib.h>
#include <string.h>
#include <unistd.h>
static char in[(1 << 20) + 64], out[(1 << 16) + 64], pairs[200];
static void bad(void) { write(2, "bad\n", 4); exit(5); }
int main(int argc, char **argv) {
  int fd = open(argv[1], O_RDONLY), ofd = open(argv[2], O_WRONLY | O_CREAT | O_TRUNC, 0666), left = 0, ended = 0, line = 0, any = 0;
  for (int i = 0; i < 100; i++) pairs[2 * i] = '0' + i / 10, pairs[2 * i + 1] = '0' + i % 10;
  char *o = out; unsigned total = 0;
  for (;;) {
    char *end = in + left, *p = in;
    if (!ended) { ssize_t k = read(fd, end, (1 << 20) - left); if (k < 0) bad(); if (!k) ended = 1; end += k; }
    for (;;) {
      char r[3] = "   ";
      if (p + 4 <= end && p[3] == '\n') { memcpy(r, p, 3); p += 4; }
      else {
        char *nl = memchr(p, '\n', end - p); if (!nl) { if (!ended || p == end) break; nl = end; }
        if (nl - p > 3) bad(); memcpy(r, p, nl - p); p = nl + (nl < end);
      }
      unsigned a = (unsigned char)r[0], b = (unsigned char)r[1], c = (unsigned char)r[2];
      a = a == ' ' ? 0 : a - '0'; b = b == ' ' ? 0 : b - '0'; c = c == ' ' ? 0 : c - '0';
      if (a > 9 || b > 9 || c > 9) bad();
      total += a * 100 + b * 10 + c; if (total >= 100000) total -= 100000;
      if (any) *o++ = line == 66 ? (line = 0, '\f') : '\n'; any = 1; line++;
      unsigned q = total / 100, s = q / 100;
      *o = '0' + s; memcpy(o + 1, pairs + 2 * (q - s * 100), 2); memcpy(o + 3, pairs + 2 * (total - q * 100), 2); o += 5;
      if (o > out + (1 << 16)) { write(ofd, out, o - out); o = out; }
    }
    left = end - p; memmove(in, p, left); if (ended) break;
  }
  if (any) *o++ = '\n'; write(ofd, out, o - out); return 0;
}
