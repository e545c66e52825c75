// Each member of a team prints its number. By threads the lines may come in any order, with --serial they don't.
#include <omp.h>
#include <stdio.h>
int main(void) {
  #pragma omp parallel num_threads(4)
  {
    int me = omp_get_thread_num();
    int size = omp_get_num_threads();
    #pragma omp critical
    printf("member %d of %d\n", me, size);
  }
  return 0;
}
