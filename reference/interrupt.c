// A library for LD_PRELOAD (reference/edges): `read` and `write` as they come out where signals interrupt them. The environment says what is done:
//   INTERRUPT_CALLS   every other call fails with EINTR, and the calls between move 1 to 7 bytes, in turn;
//   INTERRUPT_SIGNAL  SIGUSR1 is handled, without SA_RESTART, so that it interrupts a call that waits;
//   INTERRUPT_COUNTS  the file to which, at the end of the process, goes a row: reads interrupted, writes interrupted, signals handled.
#define _GNU_SOURCE
#include <errno.h>
#include <fcntl.h>
#include <signal.h>
#include <stdio.h>
#include <stdlib.h>
#include <sys/syscall.h>
#include <unistd.h>

// The calls of one sort: how many were made while every other one fails, how many were interrupted.
struct calls {
    long made;
    long interrupted;
};

static struct calls reads, writes;
static volatile sig_atomic_t signals;
static int often;

static void handle(int number) {
    (void)number;
    signals++;
}

// The answer of a call that was made.
static ssize_t made(struct calls *calls, ssize_t moved) {
    if (moved < 0 && errno == EINTR)
        calls->interrupted++;
    return moved;
}

// One call, made by number, so that the functions below are not called again.
static ssize_t make(struct calls *calls, long number, int file, void *bytes, size_t count) {
    if (!often)
        return made(calls, syscall(number, file, bytes, count));
    long k = calls->made++;
    if (k % 2 == 0) {
        calls->interrupted++;
        errno = EINTR;
        return -1;
    }
    size_t most = 1 + (size_t)(k / 2) % 7;
    return made(calls, syscall(number, file, bytes, count > most ? most : count));
}

ssize_t read(int file, void *bytes, size_t count) {
    return make(&reads, SYS_read, file, bytes, count);
}

ssize_t write(int file, const void *bytes, size_t count) {
    return make(&writes, SYS_write, file, (void *)bytes, count);
}

__attribute__((constructor)) static void begin(void) {
    often = getenv("INTERRUPT_CALLS") != NULL;
    if (getenv("INTERRUPT_SIGNAL") != NULL) {
        struct sigaction action = {.sa_handler = handle};
        sigaction(SIGUSR1, &action, NULL);
    }
}

__attribute__((destructor)) static void end(void) {
    const char *name = getenv("INTERRUPT_COUNTS");
    if (name == NULL)
        return;
    char row[80];
    int length = snprintf(row, sizeof row, "%ld %ld %ld\n", reads.interrupted, writes.interrupted, (long)signals);
    long file = syscall(SYS_openat, AT_FDCWD, name, O_WRONLY | O_CREAT | O_TRUNC, 0644);
    if (file < 0 || syscall(SYS_write, file, row, length) != length)
        _exit(70); // the test sees that its counts are missing
}
