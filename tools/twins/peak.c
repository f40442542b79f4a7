/* Runs a program and prints its status, its peak memory in KiB and its processor time in microseconds: peak PROGRAM WORD...
   A program that a large process starts would inherit that one's peak. */
#include <stdio.h>
#include <sys/resource.h>
#include <sys/wait.h>
#include <unistd.h>

int main(int argc, char **argv) {
    if (argc < 2) return 2;
    int status;
    struct rusage usage;
    pid_t child = fork();
    if (child == 0) {
        if (!freopen("/dev/null", "w", stdout) || !freopen("/dev/null", "w", stderr)) _exit(127);
        execv(argv[1], argv + 1);
        _exit(127);
    }
    if (child < 0 || wait4(child, &status, 0, &usage) < 0 || !WIFEXITED(status)) return 1;
    long seconds = usage.ru_utime.tv_sec + usage.ru_stime.tv_sec, micros = usage.ru_utime.tv_usec + usage.ru_stime.tv_usec;
    printf("%d %ld %ld\n", WEXITSTATUS(status), usage.ru_maxrss, 1000000 * seconds + micros);
    return 0;
}
