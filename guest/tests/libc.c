/* Tests that picolibc's functions are there, with errno. It halts as kit.c does. */
#include <errno.h>
#include <stdlib.h>
#include <string.h>

#include "seuss.h"

#define EXPECT(fact)                                                                               \
    if (!(fact))                                                                                   \
    seuss_halt(__LINE__)

static char text[] = "one,two,three";

/* Thread data with a value and without, beside data of both kinds. */
static _Thread_local volatile int first = 1, second;
static volatile int third = 3, fourth;

int main(void) {
    EXPECT(strlen(text) == 13 && strstr(text, "two") == text + 4 && strchr(text, 'x') == NULL);
    EXPECT(strcmp(strtok(text, ","), "one") == 0 && strcmp(strtok(NULL, ","), "two") == 0);
    EXPECT(first == 1 && second == 0 && third == 3 && fourth == 0 && errno == 0);
    EXPECT(strtol("-123x", NULL, 10) == -123 && errno == 0);
    EXPECT(strtol("99999999999999999999", NULL, 10) == INT64_MAX && errno == ERANGE);
    second = 2, fourth = 4;
    EXPECT(first == 1 && second == 2 && third == 3 && fourth == 4 && errno == ERANGE);
    return 0;
}
