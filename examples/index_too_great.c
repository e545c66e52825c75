// An index that the array doesn't have ends the run with `trapped 3` and status 4. What was printed before stays.
#include <stdio.h>
int a[4];
int main(void) {
  for (int i = 0; i <= 4; i++) {
    printf("%d\n", i);
    a[i] = i;
  }
  return 0;
}
