/* Prints the most memory, in bytes, that a program takes while it reads a file: its own, since this one, from which it is forked, takes little.
 * usage: peak FILE PROGRAM [ARGUMENT..]; what the program prints is dropped. Ends with 1 where it can't be run or fails. */
#include <fcntl.h>
#include <stdio.h>
#include <sys/resource.h>
#include <sys/wait.h>
#include <unistd.h>

static void become(char **words)
{
    int read = open(words[1], O_RDONLY), dropped = open("/dev/null", O_WRONLY);
    if (read < 0 || dropped < 0 || dup2(read, 0) < 0 || dup2(dropped, 1) < 0) _exit(1);
    execvp(words[2], words + 2);
    _exit(1);
}

int main(int count, char **words)
{
    int status = 0;
    struct rusage used;
    if (count < 3) return 1;
    pid_t child = fork();
    if (child == 0) become(words);
    if (child < 0 || wait4(child, &status, 0, &used) != child || status != 0) return 1;
    printf("%ld\n", used.ru_maxrss * 1024);
    return 0;
}
