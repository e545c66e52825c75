// Two sections talk by a place with a lock. Who waits here spins, so a run by threads may need many turns.
#include <omp.h>
#include <stdio.h>
omp_lock_t lock;
int place, full, got;
int main(void) {
  omp_init_lock(&lock);
  #pragma omp parallel sections num_threads(2)
  {
    #pragma omp section
    for (int made = 1; made < 10; ) {
      omp_set_lock(&lock);
      if (!full) { place = made; full = 1; made++; }
      omp_unset_lock(&lock);
    }
    #pragma omp section
    for (int taken = 1; taken < 10; ) {
      omp_set_lock(&lock);
      if (full) { got += place; full = 0; taken++; }
      omp_unset_lock(&lock);
    }
  }
  omp_destroy_lock(&lock);
  printf("%d\n", got);
  return 0;
}
