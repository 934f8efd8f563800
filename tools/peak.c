/* peak: runs the program that its words name, and writes to standard error the most memory that was resident in it at once, in kilobytes. A child of
 * a program in Python would count that program's own memory with it, since Linux keeps the peak of before an `exec`.
 */
#define _DEFAULT_SOURCE
#include <stdio.h>
#include <sys/resource.h>
#include <sys/wait.h>
#include <unistd.h>

int main(int count, char **words)
{
    struct rusage used;
    int status = 0;
    const pid_t child = count > 1 ? fork() : -1;

    if (child == 0) {
        execv(words[1], words + 1);
        _exit(127);
    }
    if (child < 0 || wait4(child, &status, 0, &used) != child) {
        return 126;
    }
    fprintf(stderr, "%ld\n", used.ru_maxrss);
    return WIFEXITED(status) ? WEXITSTATUS(status) : 125;
}
