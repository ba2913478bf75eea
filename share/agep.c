/* The program agep of a package: contains the proved program once for each level of processor, and
 * calls the build that fits the processor. The main of each is named after its level. This file is
 * not proved. */
#include <signal.h>
#include <stdio.h>
#include <string.h>

typedef int build(int argc, char **argv, char **environment);
build main_x86_64, main_x86_64_v3, main_x86_64_v4;

/* Answers --version or -V, as the only argument, with the version of the package and the level of
 * the build, because a build knows neither. */
static int say_version(const char *level)
{
    if (printf("agep %s (%s)\n", AGEP_VERSION, level) > 0 && fflush(stdout) == 0)
        return 0;
    fputs("agep: write failed\n", stderr);
    return 1;
}

int main(int argc, char **argv, char **environment)
{
    build *fitting = main_x86_64;
    const char *level = "x86-64";
    __builtin_cpu_init();
    if (__builtin_cpu_supports("x86-64-v4")) {
        fitting = main_x86_64_v4;
        level = "x86-64-v4";
    } else if (__builtin_cpu_supports("x86-64-v3")) {
        fitting = main_x86_64_v3;
        level = "x86-64-v3";
    }
    if (argc == 2 && (strcmp(argv[1], "--version") == 0 || strcmp(argv[1], "-V") == 0))
        return say_version(level);
    /* A write above the file size limit must fail, and must not end the program. */
    signal(SIGXFSZ, SIG_IGN);
    return fitting(argc, argv, environment);
}
