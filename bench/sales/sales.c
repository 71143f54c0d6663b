// The sales report in C, tuned by hand for as few instructions as possible: reads of 1 MiB, eight digits at a time, pairs and triples of
// digits by tables, and each line built where it is sent from. It checks characters and digits.
// usage: sales INPUT OUTPUT MMDDYY
#include <fcntl.h>
#include <stdint.h>
#include <stdio.h>
#include <stdlib.h>
#include <string.h>
#include <unistd.h>
#include <emmintrin.h>
typedef uint64_t u64;
typedef int64_t i64;
static char pairs[200];
static u64 triples[1000];  // ",ddd" as 4 bytes
static char in[(1 << 20) + 256], out[(1 << 16) + 4096];
static char *o = out;
static int ofd, here = 1, at = 1, newpage, overflow;
static void bad(void) { write(2, "bad\n", 4); exit(5); }
static inline u64 ld(const char *p) { u64 x; memcpy(&x, p, 8); return x; }
static inline void st32(char *p, uint32_t x) { memcpy(p, &x, 4); }
static inline void st16(char *p, const char *q) { memcpy(p, q, 2); }
// eight digits; blanks, which are zeros, by the slow way
static __attribute__((noinline)) u64 slow(u64 x) {
  u64 n = 0;
  for (int i = 0; i < 8; i++, x >>= 8) { unsigned c = x & 255; if (c == ' ') c = '0'; if (c < '0' || c > '9') bad(); n = n * 10 + c - '0'; }
  return n;
}
static inline u64 eight(u64 x) {
  u64 d = x ^ 0x3030303030303030ull;
  if ((d | (d + 0x7676767676767676ull)) & 0x8080808080808080ull) return slow(x);
  d = d * 10 + (d >> 8);
  return (((d & 0x000000FF000000FFull) * 0x000F424000000064ull) + (((d >> 16) & 0x000000FF000000FFull) * 0x0000271000000001ull)) >> 32;
}
// a zoned number of n digits, right-aligned in eight bytes
static inline i64 zoned(const char *p, int n) {
  u64 x = ld(p + n - 8);
  if (n < 8) x = (x & (~0ull << (8 * (8 - n)))) | (0x3030303030303030ull >> (8 * n));
  unsigned last = x >> 56;
  if (last <= '9') return eight(x);
  unsigned d = last == '}' ? 0 : last - 'I';
  if (d > 9) bad();
  return -(i64)eight((x & 0x00ffffffffffffffull) | ((u64)(d + 0x30) << 56));
}
static inline void plain(char *end, u64 n) {
  while (n >= 100) { u64 q = n / 100; end -= 2; st16(end, pairs + 2 * (n - q * 100)); n = q; }
  if (n >= 10) st16(end - 2, pairs + 2 * n); else end[-1] = '0' + n;
}
static inline void whole(char *end, u64 n) {
  while (n >= 1000) { u64 q = n / 1000; end -= 4; st32(end, triples[n - q * 1000]); n = q; }
  if (n >= 100) { end[-3] = '0' + n / 100; n %= 100; st16(end - 2, pairs + 2 * n); }
  else if (n >= 10) st16(end - 2, pairs + 2 * n); else end[-1] = '0' + n;
}
static inline void money(char *end, u64 n) {
  u64 q = n / 100;
  st16(end - 2, pairs + 2 * (n - q * 100));
  end[-3] = '.';
  if (q) whole(end - 3, q);
}
static inline void moved(void) {
  while (newpage) { *o++ = '\f'; newpage--; at = 1; }
  while (at < here) { *o++ = '\n'; at++; }
}
static void sent(void) { char *p = out; while (p < o) { ssize_t k = write(ofd, p, o - p); if (k < 0) bad(); p += k; } o = out; }
static inline void space(int n) { here += n; if (here >= 60) { overflow = 1; if (here > 66) here -= 66, newpage++; } }
static void heading(const char *date, int *page) {
  if (here > 3) newpage++;
  here = 3; moved();
  memset(o, ' ', 57);
  memcpy(o + 9, "SALES BY REGION", 15); memcpy(o + 48, "PAGE", 4);
  memcpy(o + 32, date, 2); memcpy(o + 35, date + 2, 2); memcpy(o + 38, date + 4, 2);
  o[34] = o[37] = '/'; if (o[32] == '0') o[32] = ' ';
  plain(o + 57, ++*page); o += 57; overflow = 0; space(2);
}
static void total(const char *text, int len, i64 n, int spaces) {
  moved(); memset(o, ' ', 68); memcpy(o + 30 - len, text, len);
  money(o + 67, n < 0 ? -n : n); if (n < 0) o[67] = '-';
  o += 67 + (n < 0); space(spaces);
}
int main(int argc, char **argv) {
  int fd = open(argv[1], O_RDONLY), page = 0, left = 0, ended = 0;
  ofd = open(argv[2], O_WRONLY | O_CREAT | O_TRUNC, 0666);
  for (int i = 0; i < 100; i++) pairs[2 * i] = '0' + i / 10, pairs[2 * i + 1] = '0' + i % 10;
  for (int i = 0; i < 1000; i++) { char t[8]; snprintf(t, 8, ",%03d", i); triples[i] = (uint32_t)ld(t); }
  i64 t1 = 0, t2 = 0, t3 = 0; u64 count = 0, key = 0;
  const __m128i low = _mm_set1_epi8(0x1f), high = _mm_set1_epi8(0x7e);
  heading(argv[3], &page);
  char *p = in + 16;
  for (;;) {
    char *end = in + 16 + left;
    if (!ended) { ssize_t k = read(fd, end, (1 << 20) - left); if (k < 0) bad(); if (k == 0) ended = 1; end += k; }
    p = in + 16;
    for (;;) {
      char padded[112], *nl = p + 80 < end && p[80] == '\n' ? p + 80 : memchr(p, '\n', end - p), *r = p;
      if (!nl) { if (!ended || p == end) break; nl = end; }
      long len = nl - p;
      if (len != 80) { if (len > 80) bad(); memset(padded + 16, ' ', 80); memcpy(padded + 16, p, len); r = padded + 16; }
      __m128i ok = _mm_set1_epi8(-1);
      for (int i = 0; i < 80; i += 16) {
        __m128i x = _mm_loadu_si128((__m128i *)(r + i));
        ok = _mm_and_si128(ok, _mm_andnot_si128(_mm_cmpgt_epi8(x, high), _mm_cmpgt_epi8(x, low)));
      }
      if (_mm_movemask_epi8(ok) != 0xffff) bad();
      p = nl + (nl < end);
      i64 qty = zoned(r + 5, 4), price = zoned(r + 9, 7);
      u64 k = ld(r) & 0xffffffffffull;
      if (k != key) {
        if (count) {
          t2 += t1; total("SALESMAN TOTAL", 14, t1, 2); t1 = 0;
          if ((k ^ key) & 0xffff) { t3 += t2; total("REGION TOTAL", 12, t2, 2); t2 = 0; }
        }
        key = k;
      }
      if (overflow) heading(argv[3], &page);
      i64 amount = qty * price; t1 += amount; count++;
      moved();
      const __m128i blank = _mm_set1_epi8(' ');
      for (int i = 0; i < 80; i += 16) _mm_storeu_si128((__m128i *)(o + i), blank);
      memcpy(o, r, 2); memcpy(o + 4, r + 2, 3);
      memcpy(o + 10, r + 16, 20);
      plain(o + 37, qty < 0 ? -qty : qty); money(o + 50, price < 0 ? -price : price);
      money(o + 67, amount < 0 ? -amount : amount);
      int width = 67;
      if (amount < 0) o[67] = '-', width = 68;
      if (amount > 100000) o[69] = '*', width = 70;
      o += width; space(1);
      if (o > out + (1 << 16)) sent();
    }
    left = end - p; memmove(in + 16, p, left);
    if (ended) break;
  }
  if (count) { t2 += t1; total("SALESMAN TOTAL", 14, t1, 2); t3 += t2; total("REGION TOTAL", 12, t2, 2); }
  moved(); memset(o, ' ', 90); memcpy(o + 19, "GRAND TOTAL", 11);
  money(o + 67, t3 < 0 ? -t3 : t3); if (t3 < 0) o[67] = '-';
  whole(o + 90, count); o += 90; *o++ = '\n'; sent();
  return 0;
}
