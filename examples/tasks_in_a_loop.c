// There is no taskloop: one member makes a task for each part, and the team does them at the barrier of the single.
#include <stdio.h>
int part[8];
int main(void) {
  #pragma omp parallel num_threads(4)
  #pragma omp single
  for (int p = 0; p < 8; p++) {
    #pragma omp task firstprivate(p)
    for (int i = 0; i <= p; i++)
      part[p] += i;
  }
  int sum = 0;
  for (int p = 0; p < 8; p++)
    sum += part[p];
  printf("%d\n", sum);
  return 0;
}
