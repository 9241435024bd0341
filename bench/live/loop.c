/* Starts `cat` so many times, one after another, and sends each so many lines over a pipe, waiting for every one to come
   back over another: what a live run of such scripts can't do without. loop CHILDREN ROUNDS */
#define _GNU_SOURCE
#include <fcntl.h>
#include <spawn.h>
#include <stdio.h>
#include <stdlib.h>
#include <sys/wait.h>
#include <unistd.h>

extern char **environ;

static void fail(const char *what)
{
    perror(what);
    exit(1);
}

/* Sends a line and reads until as many bytes have come. */
static void talk(int to, int from, int round)
{
    char line[64];
    int length = snprintf(line, sizeof line, "line %d\n", round);
    if (write(to, line, length) != length)
        fail("write");
    for (int got = 0; got < length;) {
        int more = read(from, line, length - got);
        if (more <= 0)
            fail("read");
        got += more;
    }
}

static void child(int rounds)
{
    int in[2], out[2], status;
    char *words[] = {"cat", NULL}, byte;
    pid_t pid;
    posix_spawn_file_actions_t actions;

    if (pipe2(in, O_CLOEXEC) || pipe2(out, O_CLOEXEC))
        fail("pipe2");
    posix_spawn_file_actions_init(&actions);
    posix_spawn_file_actions_adddup2(&actions, in[0], 0);
    posix_spawn_file_actions_adddup2(&actions, out[1], 1);
    posix_spawn_file_actions_adddup2(&actions, out[1], 2);
    if (posix_spawnp(&pid, "cat", &actions, NULL, words, environ))
        fail("posix_spawnp");
    posix_spawn_file_actions_destroy(&actions);
    close(in[0]);
    close(out[1]);
    for (int round = 0; round < rounds; round++)
        talk(in[1], out[0], round);
    close(in[1]);
    while (read(out[0], &byte, 1) > 0)
        ;
    close(out[0]);
    waitpid(pid, &status, 0);
}

int main(int count, char **words)
{
    if (count != 3)
        return 2;
    for (int left = atoi(words[1]); left > 0; left--)
        child(atoi(words[2]));
    return 0;
}
