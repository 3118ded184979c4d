/* Runs a command several times with a file as its input and its output thrown away; prints the best time in seconds and the peak memory in
   KiB. Usage: timed ROUNDS FILE COMMAND [ARGUMENT ..] */
#include <fcntl.h>
#include <stdio.h>
#include <stdlib.h>
#include <sys/resource.h>
#include <sys/wait.h>
#include <unistd.h>

#include "clock.h"

/* Becomes the command. */
static void become(const char *file, char **command) {
    int in = open(file, O_RDONLY), out = open("/dev/null", O_WRONLY);
    if (in < 0 || out < 0 || dup2(in, 0) < 0 || dup2(out, 1) < 0)
        _exit(126);
    execvp(command[0], command);
    _exit(127);
}

int main(int argc, char **argv) {
    double best = 1e9;
    long peak = 0;
    if (argc < 4) {
        fprintf(stderr, "usage: timed ROUNDS FILE COMMAND [ARGUMENT ..]\n");
        return 2;
    }
    for (int i = 0; i < atoi(argv[1]); i++) {
        double start = seconds();
        pid_t child = fork();
        if (child == 0)
            become(argv[2], argv + 3);
        int status;
        struct rusage use;
        if (child < 0 || wait4(child, &status, 0, &use) != child || status != 0) {
            fprintf(stderr, "%s failed\n", argv[3]);
            return 1;
        }
        double took = seconds() - start;
        best = took < best ? took : best;
        peak = use.ru_maxrss > peak ? use.ru_maxrss : peak;
    }
    printf("%.6f %ld\n", best, peak);
    return 0;
}
