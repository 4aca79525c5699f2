// Counts primes without an end, by trial division.
int main(void) {
    int primes = 0;
    for (int number = 3;; number += 2) {
        int divisor = 3;
        while (divisor * divisor <= number && number % divisor != 0) {
            divisor += 2;
        }
        if (divisor * divisor > number) {
            ++primes;
        }
        if (number > 1000000) {
            number = 1;
        }
    }
    return 0;
}
