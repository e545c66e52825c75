// Each member counts in an array of its own, and adds it under a critical. There is no atomic.
#include <stdio.h>
int bins[5];
int main(void) {
  #pragma omp parallel num_threads(4)
  {
    int mine[5];
    for (int k = 0; k < 5; k++)
      mine[k] = 0;
    #pragma omp for
    for (int i = 0; i < 50; i++)
      mine[i * i % 5]++;
    #pragma omp critical
    for (int k = 0; k < 5; k++)
      bins[k] += mine[k];
  }
  printf("%d %d %d %d %d\n", bins[0], bins[1], bins[2], bins[3], bins[4]);
  return 0;
}
