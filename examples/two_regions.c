// Two regions, one after the other. In `list`, thread_begin of the workers stands in the first region only: they are kept.
#include <stdio.h>
int count;
int main(void) {
  for (int round = 0; round < 2; round++) {
    #pragma omp parallel num_threads(4)
    {
      #pragma omp single
      count += 10;
    }
  }
  printf("%d\n", count);
  return 0;
}
