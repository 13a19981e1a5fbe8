/* A loop of adds, multiplications, divisions and shifts. */
#ifndef SCALE
#define SCALE 1
#endif

int main(void) {
    unsigned long a = 1, b = 0x9e3779b97f4a7c15ul;
    for (unsigned long i = 1; i < 6000000 / SCALE; i++) {
        a = a * 6364136223846793005ul + b;
        b ^= a >> 17;
        if ((i & 15) == 0)
            a += b / i;
    }
    return (int)((a ^ b) & 0x7f);
}
