/* Preloaded into a program: the rename that puts an entry into a journal is done and answered as an error, and behind it no
   file can be looked at. So it is where a network is cut between a call and its answer. */
#define _GNU_SOURCE
#include <errno.h>
#include <stdatomic.h>
#include <string.h>
#include <sys/stat.h>
#include <sys/syscall.h>
#include <unistd.h>

static atomic_int is_cut;

static int failed(void)
{
    errno = EIO;
    return -1;
}

int rename(const char *from, const char *to)
{
    int done = syscall(SYS_rename, from, to);
    if (done != 0 || !strstr(to, "/journal/"))
        return done;
    is_cut = 1;
    return failed();
}

int statx(int folder, const char *restrict path, int flags, unsigned mask, struct statx *restrict found)
{
    return is_cut ? failed() : syscall(SYS_statx, folder, path, flags, mask, found);
}
