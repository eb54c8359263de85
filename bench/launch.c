// Runs a program, and writes to a file its exit status, its processor seconds, and its peak memory in KB.
// usage: launch FILE PROGRAM [WORD..]
// Linux counts the memory of a process from before it became the program, so a run's peak is never below that of its
// parent. This parent is small.

#include <stdio.h>
#include <sys/resource.h>
#include <sys/wait.h>
#include <unistd.h>

static double seconds(struct timeval it) { return (double)it.tv_sec + (double)it.tv_usec / 1e6; }

int main(int count, char **words) {
    if (count < 3)
        return 2;
    pid_t child = fork();
    if (child < 0)
        return 2;
    if (child == 0) {
        execv(words[2], words + 2);
        _exit(127);
    }
    int status;
    struct rusage used;
    if (wait4(child, &status, 0, &used) != child || !WIFEXITED(status))
        return 2;
    FILE *told = fopen(words[1], "w");
    if (told == NULL)
        return 2;
    fprintf(told, "%d %.6f %ld\n", WEXITSTATUS(status), seconds(used.ru_utime) + seconds(used.ru_stime), used.ru_maxrss);
    return fclose(told) == 0 ? 0 : 2;
}
