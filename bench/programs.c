/* FILE PROGRAM..: runs each program on the file as its standard input, by turns, until a second has passed for each or five runs have been
 * made, and prints for each the best time from start to end and the best processor time, in microseconds. Output goes nowhere. */
#include <fcntl.h>
#include <stdio.h>
#include <stdlib.h>
#include <sys/resource.h>
#include <sys/wait.h>
#include <time.h>
#include <unistd.h>

static double now_us(void) {
    struct timespec t;
    clock_gettime(CLOCK_MONOTONIC, &t);
    return 1e6 * (double)t.tv_sec + 1e-3 * (double)t.tv_nsec;
}

static double us(struct timeval t) { return 1e6 * (double)t.tv_sec + (double)t.tv_usec; }

/* The child's part: the file for input, nothing for output. */
static void become(const char *program, const char *file) {
    int in = open(file, O_RDONLY), out = open("/dev/null", O_WRONLY);
    if (in >= 0 && out >= 0 && dup2(in, 0) == 0 && dup2(out, 1) == 1)
        execl(program, program, (char *)0);
    _exit(127);
}

/* One run; its times are kept where they are better. */
static int run(const char *program, const char *file, double *wall, double *cpu) {
    double start = now_us();
    pid_t child = fork();
    if (child == 0)
        become(program, file);
    int status;
    struct rusage used;
    if (child < 0 || wait4(child, &status, 0, &used) < 0 || !WIFEXITED(status) || WEXITSTATUS(status) == 127) {
        fprintf(stderr, "programs: %s does not run\n", program);
        return 0;
    }
    double took = now_us() - start, spent = us(used.ru_utime) + us(used.ru_stime);
    *wall = took < *wall ? took : *wall;
    *cpu = spent < *cpu ? spent : *cpu;
    return 1;
}

int main(int argc, char **argv) {
    int programs = argc - 2;
    if (programs < 1 || programs > 8)
        return 2;
    double wall[8], cpu[8], begun = now_us();
    for (int p = 0; p < programs; p++)
        wall[p] = cpu[p] = 1e18;
    for (int i = 0; i < 5 || now_us() - begun < 1e6 * programs; i++)
        for (int p = 0; p < programs; p++)
            if (!run(argv[2 + p], argv[1], &wall[p], &cpu[p]))
                return 1;
    for (int p = 0; p < programs; p++)
        printf("%.0f %.0f%s", wall[p], cpu[p], p + 1 < programs ? " " : "\n");
    return 0;
}
