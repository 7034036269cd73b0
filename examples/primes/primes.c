/* Counts the primes below 1,000 by a sieve of one bit for each number. The sieve and the answer stand in the data
   page; the answer is also what `primes` returns, and so ends in register x10. */

#define LIMIT 1000

unsigned char composite[LIMIT / 8];
unsigned count;

static int is_composite(unsigned n) { return composite[n / 8] >> (n % 8) & 1; }

static void cross_out(unsigned n) { composite[n / 8] |= (unsigned char)(1u << (n % 8)); }

unsigned primes(void) {
    for (unsigned n = 2; n < LIMIT; n++) {
        if (is_composite(n)) {
            continue;
        }
        count++;
        for (unsigned multiple = n + n; multiple < LIMIT; multiple += n) {
            cross_out(multiple);
        }
    }
    return count;
}
