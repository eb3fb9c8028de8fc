/* Stands before the allocator of the C library, and keeps OPEN pages of its memory open: what reaches into another one opens it, and shuts
   the page that was opened first. At the end it says on standard error how many were opened, or ends the process where they are more than
   MOST. So a walk along more pages is counted each time that it is made, and runs count alike. No memory is given twice. With the library
   of GNU. */
#define _GNU_SOURCE
#include <signal.h>
#include <stdint.h>
#include <stdio.h>
#include <stdlib.h>
#include <string.h>
#include <sys/mman.h>
#include <sys/syscall.h>
#include <unistd.h>

enum { PAGE = 4096, OPEN = 96, HEAD = 16 };
static const size_t ROOM = (size_t)1 << 34;
static char *memory, *next, *open_pages[OPEN];
static long opened = 0, most;

static void say_opened(void)
{
    char line[32];
    int size = snprintf(line, sizeof line, "opened %ld\n", opened);
    if (syscall(SYS_write, 2, line, size) != size)
        abort();
}

static void open_page(int number, siginfo_t *info, void *context)
{
    char *page = (char *)((uintptr_t)info->si_addr / PAGE * PAGE), **first = &open_pages[opened % OPEN];
    (void)number, (void)context;
    if (page < memory || page >= memory + ROOM)
        abort();
    if (*first)
        mprotect(*first, PAGE, PROT_NONE);
    mprotect(page, PAGE, PROT_READ | PROT_WRITE);
    *first = page;
    if (opened++ < most)
        return;
    say_opened();
    _exit(3);
}

static void begin(void)
{
    struct sigaction action = {.sa_sigaction = open_page, .sa_flags = SA_SIGINFO};
    most = atol(getenv("MOST"));
    memory = next = mmap(NULL, ROOM, PROT_NONE, MAP_PRIVATE | MAP_ANONYMOUS | MAP_NORESERVE, -1, 0);
    if (memory == MAP_FAILED || sigaction(SIGSEGV, &action, NULL))
        abort();
}

__attribute__((destructor)) static void end(void) { say_opened(); }

/* A piece has its size before it. */
void *malloc(size_t size)
{
    if (!memory)
        begin();
    if (size > ROOM / 2 || next > memory + ROOM / 2)
        return NULL;
    char *piece = next + HEAD;
    memcpy(next, &size, sizeof size);
    next = piece + (size + HEAD - 1) / HEAD * HEAD;
    return piece;
}

void *calloc(size_t count, size_t size) { return size && count > ROOM / size ? NULL : malloc(count * size); }

void *realloc(void *piece, size_t size)
{
    size_t old = 0;
    if (piece)
        memcpy(&old, (char *)piece - HEAD, sizeof old);
    if (piece && size <= old)
        return piece;
    void *larger = malloc(size);
    return larger && old ? memcpy(larger, piece, old) : larger;
}

void free(void *piece) { (void)piece; }

/* The kernel opens no page, so what is read and written is copied by way of memory that is always open. */
static char between[1 << 16];

static size_t part_of(size_t size) { return size < sizeof between ? size : sizeof between; }

ssize_t read(int device, void *part, size_t room)
{
    ssize_t size = syscall(SYS_read, device, between, part_of(room));
    if (size > 0)
        memcpy(part, between, size);
    return size;
}

ssize_t write(int device, const void *part, size_t size)
{
    memcpy(between, part, part_of(size));
    return syscall(SYS_write, device, between, part_of(size));
}
