// A function's parameters are ints, so an array that tasks share is one of the file, and its parts are told by indices.
#include <stdio.h>
int a[16], b[16];
void sort(int from, int to) {
  if (to - from < 2)
    return;
  int middle = (from + to) / 2, left = from, right = middle;
  #pragma omp task
  sort(from, middle);
  #pragma omp task
  sort(middle, to);
  #pragma omp taskwait
  for (int i = from; i < to; i++)
    if (left < middle && (right == to || a[left] <= a[right])) { b[i] = a[left]; left++; }
    else { b[i] = a[right]; right++; }
  for (int i = from; i < to; i++)
    a[i] = b[i];
}
int main(void) {
  for (int i = 0; i < 16; i++)
    a[i] = i * 5 % 16;
  #pragma omp parallel num_threads(4)
  #pragma omp single
  sort(0, 16);
  printf("%d %d %d %d\n", a[0], a[5], a[10], a[15]);
  return 0;
}
