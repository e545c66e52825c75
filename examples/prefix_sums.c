// Rounds with a barrier between: a round reads one array and writes the other. Each `omp for` ends with its barrier.
#include <stdio.h>
int from[16], to[16];
int main(void) {
  for (int i = 0; i < 16; i++)
    from[i] = 1;
  #pragma omp parallel num_threads(4)
  for (int shift = 1; shift < 16; shift *= 2) {
    #pragma omp for
    for (int i = 0; i < 16; i++) {
      to[i] = from[i];
      if (i >= shift)
        to[i] += from[i - shift];
    }
    #pragma omp for
    for (int i = 0; i < 16; i++)
      from[i] = to[i];
  }
  printf("%d %d %d\n", from[0], from[7], from[15]);
  return 0;
}
