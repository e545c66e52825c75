// There are no fractions: pi by the midpoint rule, in units of 1/10000. The terms are small enough to stay an int.
#include <stdio.h>
int main(void) {
  int steps = 100, sum = 0;
  #pragma omp parallel for num_threads(4) reduction(+:sum)
  for (int i = 0; i < steps; i++) {
    int x = (2 * i + 1) * 50;
    int square = x * x / 10000;
    sum += 400000000 / (10000 + square);
  }
  printf("%d\n", sum / steps);
  return 0;
}
