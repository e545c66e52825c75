// A lock around two variables. In `list`, asked (mutex_acquire), got (mutex_acquired) and given back (mutex_released).
#include <omp.h>
#include <stdio.h>
omp_lock_t lock;
int here = 100, there;
int main(void) {
  omp_init_lock(&lock);
  #pragma omp parallel for num_threads(4)
  for (int i = 1; i <= 8; i++) {
    omp_set_lock(&lock);
    here -= i;
    there += i;
    omp_unset_lock(&lock);
  }
  omp_destroy_lock(&lock);
  printf("%d %d\n", here, there);
  return 0;
}
