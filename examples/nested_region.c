// A region inside a region. The inner team has one member here, whatever number is asked for.
#include <omp.h>
#include <stdio.h>
int inner;
int main(void) {
  #pragma omp parallel num_threads(2)
  {
    #pragma omp parallel num_threads(2)
    {
      int size = omp_get_num_threads();
      #pragma omp critical
      inner = size;
    }
  }
  printf("inner team of %d\n", inner);
  return 0;
}
