/* Fibonacci numbers, by recursion. */
#ifndef SCALE
#define SCALE 1
#endif

static int __attribute__((noinline)) fibonacci(int n) {
    return n < 2 ? n : fibonacci(n - 1) + fibonacci(n - 2);
}

int main(void) { return fibonacci(SCALE > 1 ? 18 : 30) % 127; }
