#define SCALE(x) (100 / (x))

int __VERIFIER_nondet_int(void);

int main(void) {
    int gap = __VERIFIER_nondet_int() & 7; /* up to 7 */
    int rate = SCALE(gap);                 /* fails at 0 */
    int late = 0;
    int zero = 0;
    while (late < 5) {
        late = late + 1;
    }
    if (gap > 9) {
        rate = rate + 1;
    }
    return rate / zero + late;
}
