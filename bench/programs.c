/*
 * Times two script programs on the same script.
 *
 *   programs RUNS LINES SCRIPT PLAIN PROVED
 *
 * Prints a line as the harness does: the best processor time of each program, in
 * nanoseconds for each line of the script, its start and its end included.
 */
#include <fcntl.h>
#include <stdio.h>
#include <stdlib.h>
#include <sys/resource.h>
#include <sys/wait.h>
#include <unistd.h>

enum { PLAIN, PROVED, PROGRAMS };

static void become(const char *program, const char *script)
{
    int in = open(script, O_RDONLY), out = open("/dev/null", O_WRONLY);
    if (in >= 0 && out >= 0 && dup2(in, STDIN_FILENO) >= 0 && dup2(out, STDOUT_FILENO) >= 0)
        execl(program, program, (char *)NULL);
    _exit(127);
}

static double nanoseconds(struct timeval t)
{
    return 1e9 * (double)t.tv_sec + 1e3 * (double)t.tv_usec;
}

/* Processor time, since waiting for a busy machine is not the program's. */
static double time_of(const char *program, const char *script)
{
    struct rusage used;
    int status = 0;
    pid_t child = fork();
    if (child == 0)
        become(program, script);
    if (child < 0 || wait4(child, &status, 0, &used) != child || status != 0) {
        fprintf(stderr, "%s could not be run\n", program);
        exit(1);
    }
    return nanoseconds(used.ru_utime) + nanoseconds(used.ru_stime);
}

int main(int words, char **word)
{
    double best[PROGRAMS] = {0};
    if (words != 6) {
        fprintf(stderr, "programs RUNS LINES SCRIPT PLAIN PROVED\n");
        return 2;
    }
    for (int run = 0; run < atoi(word[1]); run++)
        for (int p = 0; p < PROGRAMS; p++) {
            double time = time_of(word[4 + p], word[3]);
            if (run == 0 || time < best[p])
                best[p] = time;
        }
    printf("%-8s %-34s %4u %3u %4u %9.1f %9.1f\n", "trail", "a_line_of_a_script", 128, 4, 0,
           best[PLAIN] / atof(word[2]), best[PROVED] / atof(word[2]));
    return 0;
}
