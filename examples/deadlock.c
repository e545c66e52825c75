// A task that sets a lock twice waits for itself. The run ends with the line `deadlock` and status 5; `list` shows why.
#include <omp.h>
#include <stdio.h>
omp_lock_t lock;
int main(void) {
  omp_init_lock(&lock);
  omp_set_lock(&lock);
  printf("once\n");
  omp_set_lock(&lock);
  printf("twice\n");
  return 0;
}
