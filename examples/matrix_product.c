// An array of rows and columns is one array here: a[row * n + column].
#include <stdio.h>
int n = 4;
int a[16], b[16], c[16];
int main(void) {
  for (int i = 0; i < n * n; i++) {
    a[i] = i;
    b[i] = 1;
  }
  #pragma omp parallel for num_threads(4)
  for (int row = 0; row < n; row++)
    for (int column = 0; column < n; column++) {
      int sum = 0;
      for (int k = 0; k < n; k++)
        sum += a[row * n + k] * b[k * n + column];
      c[row * n + column] = sum;
    }
  for (int row = 0; row < n; row++)
    printf("%d %d %d %d\n", c[row * n], c[row * n + 1], c[row * n + 2], c[row * n + 3]);
  return 0;
}
