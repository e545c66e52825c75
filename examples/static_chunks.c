// schedule(static,2): in `list`, dispatch gives member m the chunks that begin at 2*m, 2*(m+size), and so on.
#include <stdio.h>
int square[12];
int main(void) {
  #pragma omp parallel for num_threads(4) schedule(static,2)
  for (int i = 0; i < 12; i++)
    square[i] = i * i;
  int sum = 0;
  for (int i = 0; i < 12; i++)
    sum += square[i];
  printf("%d\n", sum);
  return 0;
}
