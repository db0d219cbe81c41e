/* Preloaded into a program: counts its requests for memory, and refuses those that it is told to. The requests are the
   calls of the C library that ask for a block or for another size of one, whoever makes them; stacks of threads aren't
   among them. What is told, in both directions, stands in the file that the variable REFUSALS names, which both sides
   have mapped; so it is there however the program ends.

   Each read of standard input, which has to be a file, gets one line at most. So a line is answered before the next
   one is read, and it is known which requests, and which bytes of the answers, belong to which line. Syncs wait for no
   disk, and a program that doesn't end is ended after some seconds. */
#define _GNU_SOURCE
#include <errno.h>
#include <fcntl.h>
#include <stdatomic.h>
#include <stdlib.h>
#include <string.h>
#include <sys/mman.h>
#include <sys/syscall.h>
#include <unistd.h>

enum { MOST_READS = 256, SECONDS = 20 };

/* Until when requests behind the first one are refused. */
enum { ALONE, FOR_ANSWER, FOR_GOOD };

struct told {
    long first;             /* the number of the first request that is refused, from 1; 0 where none is */
    long until;
    long spared;            /* those behind it are granted that ask for so many bytes and less */
    atomic_long requests;
    atomic_long refused;
    atomic_long written;    /* bytes of the answers */
    long reads;             /* reads of standard input */
    long first_in;          /* how many of them there were when the first request was refused */
    struct { long requests, written; } before[MOST_READS];
};

static struct told *told;

extern void *__libc_malloc(size_t);
extern void *__libc_calloc(size_t, size_t);
extern void *__libc_realloc(void *, size_t);
extern void *__libc_memalign(size_t, size_t);

__attribute__((constructor)) static void begin(void)
{
    int file = open(getenv("REFUSALS"), O_RDWR | O_CLOEXEC);
    void *map = mmap(NULL, sizeof *told, PROT_READ | PROT_WRITE, MAP_SHARED, file, 0);
    if (file < 0 || map == MAP_FAILED)
        _exit(99);
    close(file);
    alarm(SECONDS);
    told = map;
}

static int is_refused(size_t size)
{
    if (!told)
        return 0;
    long number = atomic_fetch_add(&told->requests, 1) + 1;
    if (told->first == 0 || number < told->first)
        return 0;
    if (number == told->first)
        told->first_in = told->reads;
    else if (told->until == ALONE || (told->until == FOR_ANSWER && told->reads != told->first_in))
        return 0;
    else if (size <= (size_t)told->spared)
        return 0;
    atomic_fetch_add(&told->refused, 1);
    errno = ENOMEM;
    return 1;
}

void *malloc(size_t size)
{
    return is_refused(size) ? NULL : __libc_malloc(size);
}

void *calloc(size_t count, size_t size)
{
    return is_refused(count * size) ? NULL : __libc_calloc(count, size);
}

void *realloc(void *block, size_t size)
{
    return is_refused(size) ? NULL : __libc_realloc(block, size);
}

void *memalign(size_t alignment, size_t size)
{
    return is_refused(size) ? NULL : __libc_memalign(alignment, size);
}

void *aligned_alloc(size_t alignment, size_t size)
{
    return memalign(alignment, size);
}

int posix_memalign(void **block, size_t alignment, size_t size)
{
    void *made = memalign(alignment, size);
    if (!made)
        return ENOMEM;
    *block = made;
    return 0;
}

/* The first line of what was read; what was read behind it is read again. */
static long first_line(const char *bytes, long count)
{
    const char *end = count > 0 ? memchr(bytes, '\n', count) : NULL;
    long length = end ? end + 1 - bytes : count;
    if (length < count && syscall(SYS_lseek, 0, length - count, SEEK_CUR) < 0)
        return -1;
    return length;
}

ssize_t read(int file, void *room, size_t size)
{
    if (file != 0 || !told)
        return syscall(SYS_read, file, room, size);
    if (told->reads < MOST_READS) {
        told->before[told->reads].requests = told->requests;
        told->before[told->reads].written = told->written;
    }
    told->reads++;
    return first_line(room, syscall(SYS_read, file, room, size));
}

ssize_t write(int file, const void *bytes, size_t size)
{
    long count = syscall(SYS_write, file, bytes, size);
    if (file == 1 && told && count > 0)
        atomic_fetch_add(&told->written, count);
    return count;
}

int fsync(int file)
{
    (void)file;
    return 0;
}

int fdatasync(int file)
{
    (void)file;
    return 0;
}
