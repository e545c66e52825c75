// An inner loop that ends early has a flag in its test, since there is no break.
#include <stdio.h>
int main(void) {
  int primes = 0;
  #pragma omp parallel for num_threads(4) schedule(dynamic,8) reduction(+:primes)
  for (int n = 2; n < 100; n++) {
    int is_prime = 1;
    for (int d = 2; d * d <= n && is_prime; d++)
      if (n % d == 0)
        is_prime = 0;
    primes += is_prime;
  }
  printf("%d\n", primes);
  return 0;
}
