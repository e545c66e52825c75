// A glider on a board of 6 by 6 after 4 generations. The single copies the new board; its barrier holds the others back.
#include <stdio.h>
int cell[36], next[36], n = 6;
int main(void) {
  cell[1] = 1; cell[8] = 1; cell[12] = 1; cell[13] = 1; cell[14] = 1;
  #pragma omp parallel num_threads(4)
  for (int generation = 0; generation < 4; generation++) {
    #pragma omp for
    for (int at = 0; at < n * n; at++) {
      int row = at / n, column = at % n, around = 0 - cell[at];
      for (int r = row + n - 1; r <= row + n + 1; r++)
        for (int c = column + n - 1; c <= column + n + 1; c++)
          around += cell[r % n * n + c % n];
      next[at] = around == 3 || around == 2 && cell[at];
    }
    #pragma omp single
    for (int at = 0; at < n * n; at++)
      cell[at] = next[at];
  }
  for (int row = 0; row < n; row++) {
    for (int column = 0; column < n; column++)
      printf("%d", cell[row * n + column]);
    printf("\n");
  }
  return 0;
}
