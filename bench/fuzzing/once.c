/* Runs a command, with so many seconds of a processor at most: `once SECONDS WORDS..`. It says on descriptor 3 the status (or minus the signal), the
 * microseconds of a processor, and the peak of memory in KiB. A small process, since the peak of a child begins with what its parent has. */
#include <stdio.h>
#include <stdlib.h>
#include <sys/resource.h>
#include <sys/wait.h>
#include <unistd.h>

int main(int count, char **words) {
    if (count < 3)
        return 2;
    pid_t child = fork();
    if (child == 0) {
        struct rlimit memory = {4l << 30, 4l << 30}, seconds = {atoi(words[1]), atoi(words[1])};
        setrlimit(RLIMIT_AS, &memory);
        setrlimit(RLIMIT_CPU, &seconds);
        close(3);
        execv(words[2], words + 2);
        _exit(127);
    }
    int status;
    struct rusage used;
    if (wait4(child, &status, 0, &used) < 0)
        return 2;
    dprintf(3, "%d %ld %ld\n", WIFEXITED(status) ? WEXITSTATUS(status) : -WTERMSIG(status), used.ru_utime.tv_sec * 1000000l + used.ru_utime.tv_usec,
            used.ru_maxrss);
    return 0;
}
