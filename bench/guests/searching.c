/* A search for a text, byte by byte. */
#ifndef SCALE
#define SCALE 1
#endif

enum { SIZE = 1000000 / SCALE };

static char text[SIZE];

int main(void) {
    const char *word = "needle";
    int found = 0;
    for (int i = 0; i < SIZE; i++) text[i] = "nedlenneed"[i % 10];
    for (int i = 0; word[i]; i++) text[SIZE / 2 + i] = word[i];
    for (int i = 0; i + 6 <= SIZE; i++) {
        int j = 0;
        while (j < 6 && text[i + j] == word[j]) j++;
        if (j == 6) found += i;
    }
    return found % 127;
}
