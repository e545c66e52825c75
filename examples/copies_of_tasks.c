// A task has its own copy of what it doesn't share, with the value from when it was made.
#include <stdio.h>
int copied, shared_sum;
int main(void) {
  #pragma omp parallel num_threads(4)
  #pragma omp single
  {
    int now = 1, later = 1;
    #pragma omp task shared(later)
    {
      #pragma omp critical
      { copied += now; shared_sum += later; }
    }
    now = 100;
    #pragma omp taskwait
    later = 5;
    #pragma omp task shared(later)
    {
      #pragma omp critical
      { copied += now; shared_sum += later; }
    }
    #pragma omp taskwait
  }
  printf("%d %d\n", copied, shared_sum);
  return 0;
}
