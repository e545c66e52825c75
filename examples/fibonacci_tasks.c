// A task for each branch, and taskwait for both. In `list`, task_create, then task_schedule where one begins and ends.
#include <stdio.h>
int fib(int n) {
  if (n < 2)
    return n;
  int a, b;
  #pragma omp task shared(a)
  a = fib(n - 1);
  #pragma omp task shared(b)
  b = fib(n - 2);
  #pragma omp taskwait
  return a + b;
}
int main(void) {
  int value = 0;
  #pragma omp parallel num_threads(4)
  #pragma omp single
  value = fib(10);
  printf("%d\n", value);
  return 0;
}
