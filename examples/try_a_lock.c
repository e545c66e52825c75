// omp_test_lock doesn't wait. Its call stands alone, so its answer goes into a variable first.
#include <omp.h>
#include <stdio.h>
omp_lock_t lock;
int turns;
int main(void) {
  omp_init_lock(&lock);
  #pragma omp parallel num_threads(4)
  {
    int got = omp_test_lock(&lock);
    while (!got)
      got = omp_test_lock(&lock);
    turns++;
    omp_unset_lock(&lock);
    #pragma omp barrier
  }
  int again = omp_test_lock(&lock);
  int second = omp_test_lock(&lock);
  printf("%d %d %d\n", turns > 0, again, second);
  omp_unset_lock(&lock);
  omp_destroy_lock(&lock);
  return 0;
}
