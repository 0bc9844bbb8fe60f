/* The kit's compiler makes a wrong program of this, at -O2 with -fstack-clash-protection, with which it compiles each
 * function of a program (tests/gate/toolchain.py). The test for f comes first, and then the loop that touches the pages of `pages`,
 * which counts with register r11; with six arguments and two values in the other registers `last` is in r11 meanwhile, and
 * is lost. The right answer is a ^ b ^ c ^ d, or 0 if that is f. */
void touch(volatile char *);

long lost(long a, long b, long c, long d, long e, long f) {
    volatile char pages[65536];
    volatile long kept[9];
    long first = a ^ b, second = first ^ c, last = second ^ d;
    if (last == f)
        return 0;
    kept[0] = a;
    kept[1] = b;
    kept[2] = c;
    kept[3] = d;
    kept[4] = e;
    kept[5] = f;
    kept[6] = first;
    kept[7] = second;
    kept[8] = last;
    touch(pages);
    return kept[8];
}

void touch(volatile char *page) {
    *page = 1;
}
