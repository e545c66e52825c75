// default(none): each name from outside is listed. Take `step` out of its clause, and the text is refused 14.
#include <stdio.h>
int main(void) {
  int step = 3, sum = 0, last = 7;
  #pragma omp parallel for num_threads(4) default(none) shared(step) reduction(+:sum) firstprivate(last)
  for (int i = 0; i < 10; i++) {
    last = last + step;
    sum += i * step;
  }
  printf("%d %d %d\n", step, sum, last);
  return 0;
}
