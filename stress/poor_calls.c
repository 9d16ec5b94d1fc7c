/* The calls read and write of the C library, as poor devices answer them: a call on standard input or output is interrupted at
 * random, and else moves a random number of bytes. One call may fail: then its device works again.
 *
 * `stress/soak` builds this into a library that is loaded before the C library, and sets POOR_CALLS to four numbers: a seed, the
 * most bytes that a call moves, and the numbers of bytes that are read and that are written before a call fails, or -1 if none
 * fails. */
#include <errno.h>
#include <stdint.h>
#include <stdio.h>
#include <stdlib.h>
#include <sys/syscall.h>
#include <unistd.h>

static uint64_t seed;
static unsigned long long most = 1;
/* for standard input and output, the bytes that move before a call fails, or -1 */
static long long left[2] = {-1, -1};

__attribute__((constructor)) static void read_setting(void) {
    unsigned long long number;
    const char *setting = getenv("POOR_CALLS");
    if (!setting || sscanf(setting, "%llu %llu %lld %lld", &number, &most, &left[0], &left[1]) != 4 || most == 0) {
        dprintf(2, "POOR_CALLS is not set to four numbers\n");
        _exit(3);
    }
    seed = number;
}

/* Returns a random number below `end`. */
static uint64_t random_below(uint64_t end) {
    seed = seed * 6364136223846793005u + 1442695040888963407u;
    return (seed >> 33) % end;
}

static ssize_t fail(int error) {
    errno = error;
    return -1;
}

static ssize_t move(long call, int device, void *bytes, size_t count) {
    if (device > 1)
        return syscall(call, device, bytes, count);
    if (random_below(4) == 0)
        return fail(EINTR);
    if (left[device] == 0) {
        left[device] = -1;
        return fail(EIO);
    }
    size_t some = 1 + random_below(most);
    if (left[device] > 0 && some > (unsigned long long)left[device])
        some = left[device];
    ssize_t moved = syscall(call, device, bytes, some < count ? some : count);
    if (moved > 0 && left[device] > 0)
        left[device] -= moved;
    return moved;
}

ssize_t read(int device, void *bytes, size_t count) { return move(SYS_read, device, bytes, count); }

ssize_t write(int device, const void *bytes, size_t count) { return move(SYS_write, device, (void *)bytes, count); }
