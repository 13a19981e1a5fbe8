/* Shell sort of 120,000 numbers. */
#ifndef SCALE
#define SCALE 1
#endif

static unsigned numbers[120000];

int main(void) {
    const int count = 120000 / SCALE;
    unsigned x = 12345;
    for (int i = 0; i < count; i++) {
        x = x * 1103515245u + 12345u;
        numbers[i] = x >> 4;
    }
    for (int gap = count / 2; gap > 0; gap /= 2)
        for (int i = gap; i < count; i++) {
            unsigned moved = numbers[i];
            int j = i;
            for (; j >= gap && numbers[j - gap] > moved; j -= gap)
                numbers[j] = numbers[j - gap];
            numbers[j] = moved;
        }
    for (int i = 1; i < count; i++)
        if (numbers[i - 1] > numbers[i])
            return 1;
    return (int)(numbers[count / 3] & 0x7f);
}
