/* Runs a program to its end, and writes what it took into a file: seconds, seconds of the processor in the program and
 * in the system, KiB of memory at the most, and the status with which it ended.
 *
 *     took FILE PROGRAM WORD..
 *
 * A process's most memory counts what its parent held when it was made, so the parent is this small program.
 */
#include <stdio.h>
#include <stdlib.h>
#include <sys/resource.h>
#include <sys/wait.h>
#include <time.h>
#include <unistd.h>

static double now(void)
{
    struct timespec at;
    clock_gettime(CLOCK_MONOTONIC, &at);
    return (double)at.tv_sec + (double)at.tv_nsec / 1e9;
}

static double seconds(struct timeval time)
{
    return (double)time.tv_sec + (double)time.tv_usec / 1e6;
}

int main(int count, char **words)
{
    int status;
    struct rusage used;
    if (count < 3)
        return 125;
    FILE *file = fopen(words[1], "we");
    double start = now();
    pid_t child = fork();
    if (child == 0) {
        execvp(words[2], words + 2);
        perror(words[2]);
        _exit(127);
    }
    if (!file || child < 0 || wait4(child, &status, 0, &used) < 0)
        return 125;
    fprintf(file, "%f %f %f %ld %d\n", now() - start, seconds(used.ru_utime), seconds(used.ru_stime), used.ru_maxrss,
        WIFEXITED(status) ? WEXITSTATUS(status) : 128 + WTERMSIG(status));
    return fclose(file) ? 125 : 0;
}
