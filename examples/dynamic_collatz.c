// Iterations of unlike length with schedule(dynamic,4): by threads, dispatch differs from run to run, the result doesn't.
#include <stdio.h>
int longest;
int main(void) {
  #pragma omp parallel for num_threads(4) schedule(dynamic,4) reduction(max:longest)
  for (int start = 1; start < 60; start++) {
    int n = start, steps = 0;
    while (n != 1) {
      if (n % 2 == 0)
        n /= 2;
      else
        n = 3 * n + 1;
      steps++;
    }
    if (steps > longest)
      longest = steps;
  }
  printf("%d steps\n", longest);
  return 0;
}
