// Two reductions of one loop. `list` has no event for them: members combine their copies before work ends.
#include <stdio.h>
int main(void) {
  int high = -1000, low = 1000;
  #pragma omp parallel for num_threads(4) reduction(max:high) reduction(min:low)
  for (int i = 0; i < 20; i++) {
    int height = i * 37 % 100 - 50;
    if (height > high)
      high = height;
    if (height < low)
      low = height;
  }
  printf("from %d to %d\n", low, high);
  return 0;
}
