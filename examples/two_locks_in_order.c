// There are no arrays of locks. Two of them are taken in one order by all, so nobody waits in a circle.
#include <omp.h>
#include <stdio.h>
omp_lock_t first, second;
int moved;
int main(void) {
  omp_init_lock(&first);
  omp_init_lock(&second);
  #pragma omp parallel for num_threads(4)
  for (int i = 0; i < 8; i++) {
    omp_set_lock(&first);
    omp_set_lock(&second);
    moved += i;
    omp_unset_lock(&second);
    omp_unset_lock(&first);
  }
  omp_destroy_lock(&second);
  omp_destroy_lock(&first);
  printf("%d\n", moved);
  return 0;
}
