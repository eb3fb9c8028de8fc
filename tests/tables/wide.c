/* Compares the operations on 128 bits of tools/binding/wide.c, whose names begin with `ours`, with those of the compiler. */
#include <stdio.h>
#include <stdlib.h>

typedef unsigned __int128 whole;
whole ours_multi3(whole, whole), ours_ashlti3(whole, int), ours_lshrti3(whole, int);

/* Mostly long runs of equal bits. */
static whole some(void) {
  whole it = 0;
  for (int n = 0; n < 8; n++) it = it << (random() & 31) ^ (random() & 1 ? ~(whole)0 : (whole)random());
  return it;
}

int main(void) {
  for (int n = 0; n < 2000000; n++) {
    whole a = some(), b = some();
    int by = n & 127;
    if (ours_multi3(a, b) != a * b || ours_ashlti3(a, by) != a << by || ours_lshrti3(a, by) != a >> by) return printf("%d\n", n), 1;
  }
  return 0;
}
