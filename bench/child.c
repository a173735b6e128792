/* Runs a program on its own input and output, and writes to a file what the program took: CPU seconds, user and system, and
 * the most memory that was resident, in KiB.
 *
 *     child FIGURES PROGRAM
 *
 * Linux counts what the starting process had by then among a started program's memory, so a small one must start it: this
 * one, and not Python. */
#define _DEFAULT_SOURCE /* wait4 */

#include <sys/resource.h>
#include <sys/time.h>
#include <sys/wait.h>
#include <unistd.h>

#include "expect.h"

static double seconds(struct timeval time) { return (double)time.tv_sec + 1e-6 * (double)time.tv_usec; }

/* What a program took that ended well. */
static struct rusage run(char *program)
{
    struct rusage usage;
    int status;
    pid_t child = fork();

    if (child == 0) {
        execv(program, (char *[]){program, NULL});
        _exit(127);
    }
    expect(child > 0 && wait4(child, &status, 0, &usage) == child, "no program was run");
    expect(WIFEXITED(status) && WEXITSTATUS(status) == 0, "the program did not end with status 0");
    return usage;
}

int main(int argc, char *argv[])
{
    expect(argc == 3, "child FIGURES PROGRAM");
    struct rusage usage = run(argv[2]);
    FILE *figures = fopen(argv[1], "w");

    expect(figures != NULL, "the figures can't be written");
    fprintf(figures, "%.6f %ld\n", seconds(usage.ru_utime) + seconds(usage.ru_stime), usage.ru_maxrss);
    return fclose(figures) == 0 ? EXIT_SUCCESS : EXIT_FAILURE;
}
