// The system calls of newlib's simulators, and an answer of -1 for those that a simulator doesn't have.
#include <errno.h>
#include <stddef.h>
#include <sys/stat.h>
#include <sys/time.h>
#include <sys/times.h>
#include <utime.h>

static long call(long number, long first, long second, long third)
{
    register long a0 __asm__("a0") = first;
    register long a1 __asm__("a1") = second;
    register long a2 __asm__("a2") = third;
    register long a7 __asm__("a7") = number;
    __asm__ volatile("ecall" : "+r"(a0) : "r"(a1), "r"(a2), "r"(a7) : "memory");
    return a0;
}

static int failed(void)
{
    errno = ENOSYS;
    return -1;
}

int _read(int file, void *to, size_t length) { return call(63, file, (long)to, length); }
int _write(int file, const void *from, size_t length) { return call(64, file, (long)from, length); }

void _exit(int status)
{
    for (;;)
        call(93, status, 0, 0);
}

void *_sbrk(ptrdiff_t more)
{
    static long end;
    if (end == 0)
        end = call(214, 0, 0, 0);
    long old = end;
    if (call(214, old + more, 0, 0) != old + more)
        return (void *)-1;
    end = old + more;
    return (void *)old;
}

int _fstat(int file, struct stat *status)
{
    (void)file;
    status->st_mode = S_IFCHR;
    return 0;
}

int _isatty(int file) { (void)file; return 0; }
int _close(int file) { return file < 3 ? 0 : failed(); }
int _open(const char *name, int flags, int mode) { (void)name; (void)flags; (void)mode; return failed(); }
int _lseek(int file, int to, int from) { (void)file; (void)to; (void)from; return failed(); }
int _stat(const char *name, struct stat *status) { (void)name; (void)status; return failed(); }
int _link(const char *old, const char *name) { (void)old; (void)name; return failed(); }
int _unlink(const char *name) { (void)name; return failed(); }
int _kill(int process, int signal) { (void)process; (void)signal; return failed(); }
int _getpid(void) { return 1; }
int _gettimeofday(struct timeval *now, void *zone) { (void)now; (void)zone; return failed(); }
clock_t _times(struct tms *spent) { (void)spent; return (clock_t)-1; }
int lstat(const char *name, struct stat *status) { (void)name; (void)status; return failed(); }
int chmod(const char *name, mode_t mode) { (void)name; (void)mode; return failed(); }
int fchmod(int file, mode_t mode) { (void)file; (void)mode; return failed(); }
int fchown(int file, uid_t user, gid_t group) { (void)file; (void)user; (void)group; return failed(); }
int chown(const char *name, uid_t user, gid_t group) { (void)name; (void)user; (void)group; return failed(); }
int utime(const char *name, const struct utimbuf *times) { (void)name; (void)times; return failed(); }
