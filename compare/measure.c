/* Runs a program and prints what it took, for compare/figures: processor seconds, elapsed seconds, and the most memory
 * in bytes that it had at once:
 *
 *     measure INPUT PROGRAM WORD ..
 *
 * Its standard output goes nowhere. A small program has to start it, since the memory of the one that starts a program
 * counts as the program's own. Exits with 1 where it ends with another status than 0. */
#include <fcntl.h>
#include <stdio.h>
#include <sys/resource.h>
#include <sys/wait.h>
#include <time.h>
#include <unistd.h>

static double now(void)
{
    struct timespec t;
    clock_gettime(CLOCK_MONOTONIC, &t);
    return t.tv_sec + t.tv_nsec / 1e9;
}

static double seconds(struct timeval t)
{
    return t.tv_sec + t.tv_usec / 1e6;
}

int main(int argc, char **argv)
{
    struct rusage used;
    int status;
    if (argc < 3) return 2;
    double began = now();
    pid_t child = fork();
    if (child == 0) {
        if (dup2(open(argv[1], O_RDONLY), 0) < 0 || dup2(open("/dev/null", O_WRONLY), 1) < 0) return 2;
        execv(argv[2], argv + 2);
        return 2;
    }
    if (child < 0 || wait4(child, &status, 0, &used) != child || status != 0) return 1;
    double processor = seconds(used.ru_utime) + seconds(used.ru_stime);
    printf("%.6f %.6f %ld\n", processor, now() - began, used.ru_maxrss * 1024);
    return 0;
}
