// Three sections for a team of four. In `list`, dispatch of kind 2 has the section's place; one member gets none.
#include <stdio.h>
int sum, product = 1, high;
int main(void) {
  #pragma omp parallel sections num_threads(4)
  {
    for (int i = 1; i <= 6; i++)
      sum += i;
    #pragma omp section
    for (int i = 1; i <= 6; i++)
      product *= i;
    #pragma omp section
    high = 6;
  }
  printf("%d %d %d\n", sum, product, high);
  return 0;
}
