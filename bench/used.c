/* used FD PROGRAM [WORD..]: runs a program, and writes to the file descriptor FD its exit status, the microseconds of user
   time and of system time that it took, and the most memory that it held, in KB. A process that is started by a large one is
   counted as if it had held that one's memory; this program is small. */
#include <stdio.h>
#include <stdlib.h>
#include <sys/resource.h>
#include <sys/wait.h>
#include <unistd.h>

static long microseconds(struct timeval time) { return time.tv_sec * 1000000L + time.tv_usec; }

int main(int count, char **words) {
    struct rusage used;
    int status;
    if (count < 3) return 2;
    pid_t child = fork();
    if (child < 0) return 2;
    if (child == 0) {
        close(atoi(words[1]));
        execv(words[2], words + 2);
        _exit(127);
    }
    if (wait4(child, &status, 0, &used) != child || !WIFEXITED(status)) return 2;
    long user = microseconds(used.ru_utime), system = microseconds(used.ru_stime);
    return dprintf(atoi(words[1]), "%d %ld %ld %ld\n", WEXITSTATUS(status), user, system, used.ru_maxrss) < 0;
}
