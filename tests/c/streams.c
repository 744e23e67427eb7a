/* Preloaded into a program, it treats standard input and output as a test says by the environment:
 *   READS, WRITES   what the first calls do, a letter each: i is interrupted, f fails, n moves nothing, 1 moves one byte; later calls are as ever
 *   NONBLOCKING     set: a read of standard input does not wait
 *   CATCHING        set: SIGWINCH is caught, so that it interrupts a call that waits */
#define _GNU_SOURCE
#include <errno.h>
#include <fcntl.h>
#include <signal.h>
#include <stdlib.h>
#include <sys/syscall.h>
#include <unistd.h>

static const char *reads = "", *writes = "";

static void caught(int number)
{
    (void)number;
}

__attribute__((constructor)) static void start(void)
{
    if (getenv("READS"))
        reads = getenv("READS");
    if (getenv("WRITES"))
        writes = getenv("WRITES");
    if (getenv("NONBLOCKING"))
        fcntl(STDIN_FILENO, F_SETFL, fcntl(STDIN_FILENO, F_GETFL) | O_NONBLOCK);
    if (getenv("CATCHING"))
        sigaction(SIGWINCH, &(struct sigaction){.sa_handler = caught}, NULL);
}

/* A call that takes its step from the list. */
static ssize_t step(const char **steps, long call, int fd, const void *bytes, size_t count)
{
    switch (**steps ? *(*steps)++ : '\0') {
    case 'i':
        errno = EINTR;
        return -1;
    case 'f':
        errno = EIO;
        return -1;
    case 'n':
        return 0;
    case '1':
        return syscall(call, fd, bytes, (size_t)(count > 0));
    default:
        return syscall(call, fd, bytes, count);
    }
}

ssize_t read(int fd, void *bytes, size_t count)
{
    const char *none = "";
    return step(fd == STDIN_FILENO ? &reads : &none, SYS_read, fd, bytes, count);
}

ssize_t write(int fd, const void *bytes, size_t count)
{
    const char *none = "";
    return step(fd == STDOUT_FILENO ? &writes : &none, SYS_write, fd, bytes, count);
}
