/* A library that is loaded before a program (LD_PRELOAD, by tools/runs.py). It numbers the calls that read standard input and write standard
   output and standard error, together and from 0, and has these settings in the environment:

     CALLS_PIECE   the greatest number of octets that a call moves
     CALLS_FAIL    the number of the call that fails, with EIO; -1 is none
     CALLS_LOG     the descriptor of the log. Each call has a line there: its kind (read, write, note), and the numbers of octets that were
                   taken and given as it began */
#define _GNU_SOURCE
#include <errno.h>
#include <stdio.h>
#include <stdlib.h>
#include <sys/syscall.h>
#include <unistd.h>

static const char *const kinds[] = {"read", "write", "note"}; /* by descriptor */

static long piece, failing, log_to, number;
static long long moved[3]; /* by descriptor */

static long setting(const char *name) {
    const char *text = getenv(name);
    if (text == NULL) {
        abort();
    }
    return atol(text);
}

__attribute__((constructor)) static void start(void) {
    piece = setting("CALLS_PIECE");
    failing = setting("CALLS_FAIL");
    log_to = setting("CALLS_LOG");
}

static void add_line(int descriptor) {
    char line[80];
    int count = snprintf(line, sizeof line, "%s %lld %lld\n", kinds[descriptor], moved[0], moved[1]);
    if (syscall(SYS_write, log_to, line, (size_t)count) != count) {
        abort();
    }
}

static ssize_t call(long which, int descriptor, void *octets, size_t count) {
    ssize_t done;
    if (descriptor < 0 || descriptor > 2) {
        return syscall(which, descriptor, octets, count);
    }
    add_line(descriptor);
    if (number++ == failing) {
        errno = EIO;
        return -1;
    }
    done = syscall(which, descriptor, octets, count < (size_t)piece ? count : (size_t)piece);
    if (done > 0) {
        moved[descriptor] += done;
    }
    return done;
}

ssize_t read(int descriptor, void *octets, size_t count) { return call(SYS_read, descriptor, octets, count); }

ssize_t write(int descriptor, const void *octets, size_t count) { return call(SYS_write, descriptor, (void *)octets, count); }
