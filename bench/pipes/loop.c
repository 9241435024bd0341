/* Sends a line to a child and reads the answer, so many times, over two pipes. */
#include <stdio.h>
#include <stdlib.h>
#include <sys/wait.h>
#include <unistd.h>
int main(int argc, char **argv) {
    int rounds = argc > 1 ? atoi(argv[1]) : 20000, to[2], from[2];
    char buf[4096];
    if (pipe(to) || pipe(from)) return 2;
    pid_t child = fork();
    if (child < 0) return 2;
    if (child == 0) {
        dup2(to[0], 0); dup2(from[1], 1);
        close(to[0]); close(to[1]); close(from[0]); close(from[1]);
        execlp("cat", "cat", (char *)0);
        _exit(127);
    }
    close(to[0]); close(from[1]);
    long got = 0;
    for (int i = 0; i < rounds; i++) {
        if (write(to[1], "x\n", 2) != 2) return 2;
        if (read(from[0], buf, sizeof buf) > 0) got++;
    }
    close(to[1]);
    waitpid(child, 0, 0);
    printf("%ld answers\n", got);
    return 0;
}
