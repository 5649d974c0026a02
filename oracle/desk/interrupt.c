/* Loaded before the desk program (LD_PRELOAD), to test a read that a signal interrupts: SIGUSR1 is handled, and a read that it interrupts is told of. */
#define _GNU_SOURCE
#include <errno.h>
#include <signal.h>
#include <sys/syscall.h>
#include <unistd.h>

static void handle(int signal) { (void)signal; }

__attribute__((constructor)) static void prepare(void)
{
    struct sigaction action = { .sa_handler = handle };
    sigaction(SIGUSR1, &action, 0);
}

ssize_t read(int fd, void *buffer, size_t count)
{
    ssize_t got = syscall(SYS_read, fd, buffer, count);
    if (got < 0 && errno == EINTR) {
        if (syscall(SYS_write, 2, "interrupted\n", 12) != 12)
            _exit(1);
        errno = EINTR;
    }
    return got;
}
