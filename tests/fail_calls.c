/* Has a read or a write of a program fail, or move a few bytes. Preload it:

       cc -O2 -shared -fPIC -o fail_calls.so fail_calls.c
       FILE=history.ndjson NUMBER=2 ERROR=5 MOST=7 TOLD=told LD_PRELOAD=./fail_calls.so casbench check history.ndjson

   Each read gives, and each write takes, at most MOST bytes. The read or write of the file FILE, whichever way the program has it
   open, that has the number NUMBER, counted from 1, fails with the error of the number ERROR; where that is 0 it moves no byte, and
   where it is below 0 the program is killed. Where FILE is `*` it is a write to whatever isn't standard output. The file named in TOLD
   gets a byte for each call: `!` for the one that fails, `n` for another one of FILE, `.` for one of another file. Standard error is
   left alone, and so is what the loader and the C library themselves read. Where there is RENAME, each renaming fails with the error of
   this number.
*/
#include <errno.h>
#include <fcntl.h>
#include <signal.h>
#include <stdatomic.h>
#include <stdint.h>
#include <stdio.h>
#include <stdlib.h>
#include <string.h>
#include <sys/stat.h>
#include <sys/syscall.h>
#include <unistd.h>

static const char *named;
static unsigned long failing;
static int error;
static size_t most;
static int told;
static int renaming;
static atomic_ulong seen;

static unsigned long number_in(const char *name, unsigned long otherwise) {
    const char *number = getenv(name);
    return number ? strtoul(number, NULL, 10) : otherwise;
}

__attribute__((constructor)) static void start(void) {
    named = getenv("FILE");
    failing = number_in("NUMBER", 0);
    error = getenv("ERROR") ? atoi(getenv("ERROR")) : 0;
    renaming = (int)number_in("RENAME", 0);
    most = number_in("MOST", SIZE_MAX);
    told = open(getenv("TOLD"), O_WRONLY | O_APPEND | O_CLOEXEC);
    if (told < 0)
        abort();
}

/* Whether the call is one of the file FILE. */
static int is_named(long call, int at) {
    struct stat here, there;
    if (named && !strcmp(named, "*"))
        return call == SYS_write && at != STDOUT_FILENO;
    return named && !fstat(at, &here) && !stat(named, &there) && here.st_dev == there.st_dev && here.st_ino == there.st_ino;
}

static void tell(char what) {
    if (syscall(SYS_write, told, &what, 1) != 1)
        abort();
}

/* Does a read or a write, which may have to fail. */
static ssize_t moved(long call, int at, void *bytes, size_t count) {
    if (at == STDERR_FILENO)
        return syscall(call, at, bytes, count);
    int is_of_file = is_named(call, at);
    int fails = is_of_file && atomic_fetch_add(&seen, 1) + 1 == failing;
    tell(fails ? '!' : is_of_file ? 'n' : '.');
    if (fails) {
        if (error < 0)
            raise(SIGKILL);
        errno = error;
        return error ? -1 : 0;
    }
    return syscall(call, at, bytes, count < most ? count : most);
}

ssize_t read(int at, void *bytes, size_t count) { return moved(SYS_read, at, bytes, count); }

ssize_t write(int at, const void *bytes, size_t count) { return moved(SYS_write, at, (void *)bytes, count); }

/* Does a renaming, which may have to fail. */
static int renamed(int from_at, const char *from, int to_at, const char *to, unsigned int how) {
    if (renaming) {
        errno = renaming;
        return -1;
    }
    return (int)syscall(SYS_renameat2, from_at, from, to_at, to, how);
}

int rename(const char *from, const char *to) { return renamed(AT_FDCWD, from, AT_FDCWD, to, 0); }

int renameat(int from_at, const char *from, int to_at, const char *to) { return renamed(from_at, from, to_at, to, 0); }

int renameat2(int from_at, const char *from, int to_at, const char *to, unsigned int how) {
    return renamed(from_at, from, to_at, to, how);
}
