// A loop that a team shares out. In `list`, the four lines with dispatch say which iterations each member got.
#include <stdio.h>
int main(void) {
  int sum = 0;
  #pragma omp parallel for num_threads(4) reduction(+:sum)
  for (int i = 1; i <= 10; i++)
    sum += i;
  printf("%d\n", sum);
  return 0;
}
