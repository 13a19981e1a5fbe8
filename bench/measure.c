/*
 * measure ROUNDS INPUT OUTPUT COMMAND [WORD..]: runs the command so many times, with the file
 * INPUT as its input and its output to the file OUTPUT, and prints the least wall-clock time of a
 * run in nanoseconds and the largest memory that one held, in KiB. Ends with 1 where a run can't
 * be started or ends with another status than 0.
 */
#include <fcntl.h>
#include <stdio.h>
#include <stdlib.h>
#include <sys/resource.h>
#include <sys/wait.h>
#include <time.h>
#include <unistd.h>

static long long now(void) {
    struct timespec t;
    clock_gettime(CLOCK_MONOTONIC, &t);
    return t.tv_sec * 1000000000LL + t.tv_nsec;
}

static void run(const char *input, const char *output, char **command) {
    int in = open(input, O_RDONLY);
    int out = open(output, O_WRONLY | O_CREAT | O_TRUNC, 0600);
    if (in < 0 || out < 0 || dup2(in, 0) < 0 || dup2(out, 1) < 0) _exit(1);
    execvp(command[0], command);
    _exit(1);
}

int main(int argc, char **argv) {
    long long least = -1;
    long most = 0;
    int rounds = argc > 4 ? atoi(argv[1]) : 0;
    if (rounds < 1) {
        fprintf(stderr, "usage: measure ROUNDS INPUT OUTPUT COMMAND [WORD..]\n");
        return 1;
    }
    for (int round = 0; round < rounds; round++) {
        struct rusage use;
        int status;
        long long begin = now();
        pid_t child = fork();
        if (child == 0) run(argv[2], argv[3], argv + 4);
        if (child < 0 || wait4(child, &status, 0, &use) < 0) return 1;
        long long took = now() - begin;
        if (!WIFEXITED(status) || WEXITSTATUS(status) != 0) return 1;
        if (least < 0 || took < least) least = took;
        if (use.ru_maxrss > most) most = use.ru_maxrss;
    }
    printf("%lld %ld\n", least, most);
    return 0;
}
