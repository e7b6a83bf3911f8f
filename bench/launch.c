/* Times a whole program from start to end.

   launch RUNS FILE PROGRAM [ARGUMENT...]

   Starts PROGRAM with FILE on standard input and its output thrown away, and
   prints the median in seconds. There are fewer runs than RUNS where they take
   longer than two seconds in all. */

#define _GNU_SOURCE
#include <fcntl.h>
#include <spawn.h>
#include <sys/wait.h>

#include "timed.h"

extern char **environ;

struct start {
    const char *file;
    char **command;
};

static double once(void *given) {
    const struct start *start = given;
    char **command = start->command;
    posix_spawn_file_actions_t actions;
    pid_t child;
    int status;
    posix_spawn_file_actions_init(&actions);
    posix_spawn_file_actions_addopen(&actions, 0, start->file, O_RDONLY, 0);
    posix_spawn_file_actions_addopen(&actions, 1, "/dev/null", O_WRONLY, 0);
    double begun = now();
    if (posix_spawnp(&child, command[0], &actions, NULL, command, environ) != 0) exit(2);
    if (waitpid(child, &status, 0) != child) exit(2);
    double seconds = now() - begun;
    posix_spawn_file_actions_destroy(&actions);
    if (!WIFEXITED(status)) exit(3);
    return seconds;
}

int main(int argc, char **argv) {
    int most = argc > 3 ? runs_asked(argv[1]) : 0;
    if (most == 0) return 2;
    struct start start = {argv[2], argv + 3};
    once(&start); /* the first start reads the program from disk */
    printf("%.9f\n", median_seconds(once, &start, most, 2.0));
    return 0;
}
