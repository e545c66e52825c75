// schedule(guided): in `list`, the chunks of dispatch get shorter, down to one iteration.
#include <stdio.h>
int main(void) {
  int even = 0;
  #pragma omp parallel for num_threads(4) schedule(guided) reduction(+:even)
  for (int i = 0; i < 40; i++)
    if (i % 2 == 0)
      even++;
  printf("%d\n", even);
  return 0;
}
