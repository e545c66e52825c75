// Six queens: a task for each place that is safe, which nobody waits for but a barrier. A call's value goes to a variable first.
#include <stdio.h>
int n = 6, found;
int safe(int placed, int row, int column) {
  int ok = 1;
  for (int back = 1; back <= row; back++) {
    int apart = placed % n - column;
    if (apart == 0 || apart == back || apart == -back)
      ok = 0;
    placed /= n;
  }
  return ok;
}
void place(int placed, int row) {
  #pragma omp critical
  found += row == n;
  for (int column = 0; column < n && row < n; column++) {
    int ok = safe(placed, row, column);
    if (ok) {
      #pragma omp task
      place(placed * n + column, row + 1);
    }
  }
}
int main(void) {
  #pragma omp parallel num_threads(4)
  #pragma omp single
  place(0, 0);
  printf("%d\n", found);
  return 0;
}
