// Each member writes its own place, waits at a barrier, and reads its neighbour's. In `list`, kind 3 is this barrier.
#include <omp.h>
#include <stdio.h>
int left[16], total;
int main(void) {
  #pragma omp parallel num_threads(4)
  {
    int me = omp_get_thread_num(), size = omp_get_num_threads();
    left[me] = me + 1;
    #pragma omp barrier
    int seen = left[(me + 1) % size];
    #pragma omp critical
    total += seen;
  }
  printf("%d\n", total);
  return 0;
}
