// With if(0) the thread that makes a task does it at once. In `list`, task_create has flags 134217732 in place of 4.
#include <stdio.h>
int order;
int main(void) {
  int small = 1;
  #pragma omp task if(!small) shared(order)
  order = 1;
  printf("after the undeferred task: %d\n", order);
  #pragma omp task
  order = 2;
  #pragma omp taskwait
  printf("after taskwait: %d\n", order);
  return 0;
}
