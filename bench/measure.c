/* measure RUNS INPUT PROGRAM..
 *
 * Runs each program RUNS times on the input, by turns, and prints a line for each: the least processor time of a run in
 * microseconds (user and system), and the most memory of a run in KiB. What the programs print is thrown away; one that
 * does not end well ends the measurement. */
#define _DEFAULT_SOURCE
#include <fcntl.h>
#include <stdio.h>
#include <stdlib.h>
#include <sys/resource.h>
#include <sys/wait.h>
#include <unistd.h>

enum { MOST_PROGRAMS = 8 };

static void become(const char *program, const char *input)
{
    int in = open(input, O_RDONLY), out = open("/dev/null", O_WRONLY);
    if (in < 0 || out < 0 || dup2(in, 0) < 0 || dup2(out, 1) < 0)
        _exit(126);
    execl(program, program, (char *)0);
    _exit(127);
}

static long microseconds(const struct rusage *used)
{
    return (used->ru_utime.tv_sec + used->ru_stime.tv_sec) * 1000000L + used->ru_utime.tv_usec + used->ru_stime.tv_usec;
}

int main(int count, char **words)
{
    long best[MOST_PROGRAMS], memory[MOST_PROGRAMS];
    int runs = count > 3 ? atoi(words[1]) : 0, programs = count - 3, run, i;
    if (runs < 1 || programs > MOST_PROGRAMS)
        return 2;
    for (run = 0; run < runs; run++)
        for (i = 0; i < programs; i++) {
            struct rusage used;
            int status;
            pid_t child = fork();
            if (child == 0)
                become(words[3 + i], words[2]);
            if (child < 0 || wait4(child, &status, 0, &used) != child || status != 0) {
                fprintf(stderr, "measure: %s did not end well\n", words[3 + i]);
                return 1;
            }
            if (run == 0 || microseconds(&used) < best[i])
                best[i] = microseconds(&used);
            if (run == 0 || used.ru_maxrss > memory[i])
                memory[i] = used.ru_maxrss;
        }
    for (i = 0; i < programs; i++)
        printf("%ld %ld\n", best[i], memory[i]);
    return 0;
}
