// Arithmetic without an end: a linear congruential generator and a sum of what it gives.
int main(void) {
    unsigned long seed = 1;
    unsigned int sum = 0;
    while (1) {
        seed = seed * 6364136223846793005ul + 1442695040888963407ul;
        sum = (sum << 5 ^ sum >> 27) + (unsigned int) (seed >> 33);
    }
    return 0;
}
