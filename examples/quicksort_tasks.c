// A task sorts each side, and nobody waits for it but the barrier of the single. By threads, who sorts what differs.
#include <stdio.h>
int a[20];
void quicksort(int low, int high) {
  if (low >= high)
    return;
  int pivot = a[high], split = low;
  for (int i = low; i <= high; i++)
    if (a[i] < pivot || i == high) {
      int held = a[i];
      a[i] = a[split];
      a[split] = held;
      split++;
    }
  #pragma omp task
  quicksort(low, split - 2);
  #pragma omp task
  quicksort(split, high);
}
int main(void) {
  for (int i = 0; i < 20; i++)
    a[i] = i * 7 % 20;
  #pragma omp parallel num_threads(4)
  #pragma omp single
  quicksort(0, 19);
  printf("%d %d %d\n", a[0], a[10], a[19]);
  return 0;
}
