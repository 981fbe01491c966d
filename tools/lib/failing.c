/* Loaded before a program (LD_PRELOAD), has its reads, its writes or what it does to a file fail, or ends it. READ_MOST: a read gives at
   most so many octets. READ_FAILS: the read of standard input of this number, counted from 1, fails; FILE_FAILS: that of files.
   WRITE_TAKES: after so many octets a write to standard output fails, or accepts none where WRITE_NOUGHT is there; FILE_TAKES: a write to
   files. SYNC_FAILS, RENAME_FAILS: these fail. DIES_AT: the program is killed before its write to a file, sync or rename of this number.
   READS names a file of eight octets in which the number of reads of standard input stands. For tools/hostile alone; no proof speaks of
   it. */
#define _GNU_SOURCE
#include <errno.h>
#include <fcntl.h>
#include <signal.h>
#include <stdlib.h>
#include <sys/mman.h>
#include <sys/syscall.h>
#include <unistd.h>

static unsigned long own[2], *reads = own, most = -1, fails, file_fails, takes = -1, taken, file_takes = -1, file_taken, dies, steps;
static int is_nought, sync_fails, rename_fails;

static unsigned long number(const char *name, unsigned long otherwise)
{
    const char *text = getenv(name);
    return text ? strtoul(text, NULL, 10) : otherwise;
}

__attribute__((constructor)) static void begin(void)
{
    const char *path = getenv("READS");
    int file = path ? open(path, O_RDWR) : -1;
    if (file >= 0) {
        void *map = mmap(NULL, sizeof own, PROT_READ | PROT_WRITE, MAP_SHARED, file, 0);
        if (map != MAP_FAILED)
            reads = map;
    }
    reads[0] = reads[1] = 0;
    most = number("READ_MOST", most);
    fails = number("READ_FAILS", 0);
    file_fails = number("FILE_FAILS", 0);
    takes = number("WRITE_TAKES", takes);
    file_takes = number("FILE_TAKES", file_takes);
    is_nought = getenv("WRITE_NOUGHT") != NULL;
    sync_fails = getenv("SYNC_FAILS") != NULL;
    rename_fails = getenv("RENAME_FAILS") != NULL;
    dies = number("DIES_AT", 0);
}

static int failed(void)
{
    errno = EIO;
    return -1;
}

/* Before each call that changes a file or where it stands. */
static void step(void)
{
    if (++steps == dies)
        kill(getpid(), SIGKILL);
}

ssize_t read(int from, void *to, size_t size)
{
    if (from == STDIN_FILENO ? ++reads[0] == fails : ++reads[1] == file_fails)
        return failed();
    return syscall(SYS_read, from, to, size < most ? size : most);
}

static ssize_t some(int to, const void *from, size_t size, unsigned long at_most, unsigned long *so_far)
{
    if (*so_far >= at_most)
        return is_nought ? 0 : failed();
    ssize_t wrote = syscall(SYS_write, to, from, size < at_most - *so_far ? size : at_most - *so_far);
    if (wrote > 0)
        *so_far += wrote;
    return wrote;
}

ssize_t write(int to, const void *from, size_t size)
{
    if (to == STDERR_FILENO || size == 0)
        return syscall(SYS_write, to, from, size);
    if (to == STDOUT_FILENO)
        return some(to, from, size, takes, &taken);
    step();
    return some(to, from, size, file_takes, &file_taken);
}

ssize_t __write(int to, const void *from, size_t size) { return write(to, from, size); }

int fsync(int file)
{
    step();
    return sync_fails ? failed() : (int)syscall(SYS_fsync, file);
}

int fdatasync(int file)
{
    step();
    return sync_fails ? failed() : (int)syscall(SYS_fdatasync, file);
}

int rename(const char *from, const char *to)
{
    step();
    return rename_fails ? failed() : (int)syscall(SYS_renameat2, AT_FDCWD, from, AT_FDCWD, to, 0);
}
