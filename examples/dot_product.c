// Two loops in one region. The first has nowait, so `list` has one barrier less: the members go on to the next loop.
#include <stdio.h>
int a[16], b[16], dot;
int main(void) {
  #pragma omp parallel num_threads(4)
  {
    #pragma omp for schedule(static) nowait
    for (int i = 0; i < 16; i++)
      a[i] = i;
    #pragma omp for schedule(static)
    for (int i = 0; i < 16; i++)
      b[i] = 2;
    #pragma omp for reduction(+:dot)
    for (int i = 0; i < 16; i++)
      dot += a[i] * b[i];
  }
  printf("%d\n", dot);
  return 0;
}
