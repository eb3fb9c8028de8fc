/* The operations on 128 bits that the compiler calls by name where a target lacks them. None may use what it defines. */
typedef unsigned long long half;
typedef union {
  unsigned __int128 whole;
  struct { half low, high; };
} wide;

unsigned __int128 __multi3(unsigned __int128 x, unsigned __int128 y) {
  wide a = {x}, b = {y}, to;
  half a0 = (unsigned)a.low, a1 = a.low >> 32, b0 = (unsigned)b.low, b1 = b.low >> 32;
  half first = a0 * b0, second = a1 * b0 + (first >> 32), third = a0 * b1 + (unsigned)second;
  to.low = third << 32 | (unsigned)first;
  to.high = a1 * b1 + (second >> 32) + (third >> 32) + a.low * b.high + a.high * b.low;
  return to.whole;
}

unsigned __int128 __ashlti3(unsigned __int128 x, int by) {
  wide a = {x}, to = {0};
  if (by >= 64) to.high = a.low << (by - 64);
  else to.low = a.low << by, to.high = a.high << by | a.low >> 1 >> (63 - by);
  return to.whole;
}

unsigned __int128 __lshrti3(unsigned __int128 x, int by) {
  wide a = {x}, to = {0};
  if (by >= 64) to.low = a.high >> (by - 64);
  else to.high = a.high >> by, to.low = a.low >> by | a.high << 1 << (63 - by);
  return to.whole;
}
