/* Runs a program on a pipe of a kind that a shell does not make:
 *   feed nonblocking FILE PROGRAM ..   standard input is a non-blocking pipe that holds FILE and stays open
 *   feed full PROGRAM ..               standard output is a full pipe, non-blocking
 *   feed late PROGRAM ..               standard output is a full pipe that is emptied after 0.3 s; what the program wrote is copied
 * The exit status is the program's, or 125 where a pipe is not made.
 */
#define _GNU_SOURCE
#include <fcntl.h>
#include <stdio.h>
#include <stdlib.h>
#include <string.h>
#include <sys/wait.h>
#include <unistd.h>

static void stop(const char *what)
{
    perror(what);
    exit(125);
}

static pid_t start(char **program, int from, int to, int other)
{
    pid_t child = fork();
    if (child < 0)
        stop("fork");
    if (child == 0) {
        if (dup2(from, to) < 0)
            stop("dup2");
        close(from);
        close(other);
        execvp(program[0], program);
        stop(program[0]);
    }
    return child;
}

static void set_nonblocking(int fd, int on)
{
    int flags = fcntl(fd, F_GETFL);
    if (flags < 0 || fcntl(fd, F_SETFL, on ? flags | O_NONBLOCK : flags & ~O_NONBLOCK) < 0)
        stop("fcntl");
}

static void put_file(const char *name, int fd)
{
    unsigned char bytes[4096];
    FILE *file = fopen(name, "rb");
    if (!file)
        stop(name);
    size_t n = fread(bytes, 1, sizeof bytes, file);
    fclose(file);
    if (write(fd, bytes, n) != (ssize_t)n)
        stop("write");
}

static size_t fill(int fd)
{
    char zeros[4096] = {0};
    size_t filled = 0;
    ssize_t put;
    set_nonblocking(fd, 1);
    while ((put = write(fd, zeros, sizeof zeros)) > 0)
        filled += (size_t)put;
    while ((put = write(fd, zeros, 1)) > 0)
        filled += (size_t)put;
    return filled;
}

static void copy_past(int fd, size_t filled)
{
    char bytes[4096];
    ssize_t got;
    usleep(300000);
    while ((got = read(fd, bytes, sizeof bytes)) > 0) {
        size_t skip = (size_t)got < filled ? (size_t)got : filled;
        filled -= skip;
        fwrite(bytes + skip, 1, (size_t)got - skip, stdout);
    }
}

int main(int argc, char **argv)
{
    int ends[2], status;
    pid_t child;
    if (argc < 3 || pipe(ends) < 0)
        stop("feed");
    if (strcmp(argv[1], "nonblocking") == 0 && argc > 3) {
        put_file(argv[2], ends[1]);
        set_nonblocking(ends[0], 1);
        child = start(argv + 3, ends[0], 0, ends[1]);
    } else if (strcmp(argv[1], "full") == 0) {
        fill(ends[1]);
        child = start(argv + 2, ends[1], 1, ends[0]);
    } else if (strcmp(argv[1], "late") == 0) {
        size_t filled = fill(ends[1]);
        set_nonblocking(ends[1], 0);
        child = start(argv + 2, ends[1], 1, ends[0]);
        close(ends[1]);
        copy_past(ends[0], filled);
    } else {
        fprintf(stderr, "feed: unknown kind %s\n", argv[1]);
        return 125;
    }
    if (waitpid(child, &status, 0) < 0)
        stop("waitpid");
    return WIFEXITED(status) ? WEXITSTATUS(status) : 128 + WTERMSIG(status);
}
