// Criticals of two names don't wait for each other. In `list`, wait identifiers 1 and 2 tell them apart.
#include <stdio.h>
int black, white;
int main(void) {
  #pragma omp parallel for num_threads(4)
  for (int i = 0; i < 12; i++) {
    if (i % 3 == 0) {
      #pragma omp critical (black)
      black++;
    } else {
      #pragma omp critical (white)
      white++;
    }
  }
  printf("%d %d\n", black, white);
  return 0;
}
