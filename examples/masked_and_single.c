// Only member 0 has events of masked, and it waits for nobody. A single has work events of all, and a barrier.
#include <omp.h>
#include <stdio.h>
int counted;
int main(void) {
  #pragma omp parallel num_threads(4)
  {
    #pragma omp masked
    printf("masked\n");
    #pragma omp barrier
    #pragma omp single
    printf("single\n");
    #pragma omp critical
    counted = 1;
  }
  printf("%d\n", counted);
  return 0;
}
