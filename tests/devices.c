/* Stands before the reads of standard input and the writes of standard output. Each moves one byte, and the call of the device
   FAILS (0 or 1) whose number is CALL fails with the error ERROR. What calls a device again that failed, or a second one behind
   it, is told so on standard error. Calls are counted from 1. With the library of GNU. */
#include <errno.h>
#include <stdlib.h>
#include <sys/syscall.h>
#include <unistd.h>

static long number_of(const char *name)
{
    const char *number = getenv(name);
    return number ? atol(number) : -1;
}

/* Whether this call of a device fails. */
static int fails(int device)
{
    static const char again[] = "asked again\n";
    static long calls[2];
    static int failed = 0;
    calls[device]++;
    if (failed)
        syscall(SYS_write, 2, again, sizeof again - 1);
    if (device != number_of("FAILS") || calls[device] != number_of("CALL"))
        return 0;
    failed = 1;
    errno = (int)number_of("ERROR");
    return 1;
}

ssize_t read(int device, void *part, size_t room)
{
    if (device != 0)
        return syscall(SYS_read, device, part, room);
    return fails(0) ? -1 : syscall(SYS_read, 0, part, room ? 1 : 0);
}

ssize_t write(int device, const void *part, size_t size)
{
    if (device != 1)
        return syscall(SYS_write, device, part, size);
    return fails(1) ? -1 : syscall(SYS_write, 1, part, size ? 1 : 0);
}
