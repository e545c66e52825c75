// Sorting by neighbours: odd and even pairs by turns. In `timeline`, b is the wait at the barrier of each round.
#include <stdio.h>
int a[10], n = 10;
int main(void) {
  for (int i = 0; i < n; i++)
    a[i] = i * 7 % 10;
  #pragma omp parallel num_threads(4)
  for (int round = 0; round < n; round++) {
    int first = round % 2;
    #pragma omp for
    for (int i = first; i < n - 1; i += 2)
      if (a[i] > a[i + 1]) {
        int held = a[i];
        a[i] = a[i + 1];
        a[i + 1] = held;
      }
  }
  for (int i = 0; i < n; i++)
    printf("%d ", a[i]);
  printf("\n");
  return 0;
}
