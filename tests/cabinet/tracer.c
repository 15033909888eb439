/*
 * Loaded before the cabinet (LD_PRELOAD): writes down every store that it makes into its mapped file, every msync of it and every flush of what it
 * prints, in their order, to the file that TRACE names. The mapping may not be written, so that each instruction that stores there is stopped before
 * it and let through alone.
 *
 * Each entry is a kind, an offset and a count, 8 bytes each: 0 the file as it was mapped, and its bytes; 1 an
 * instruction that stores, and the bytes that it changed; 2 an msync; 3 a flush.
 */
#define _GNU_SOURCE
#include <dlfcn.h>
#include <fcntl.h>
#include <signal.h>
#include <stdint.h>
#include <stdio.h>
#include <stdlib.h>
#include <string.h>
#include <sys/mman.h>
#include <sys/syscall.h>
#include <ucontext.h>
#include <unistd.h>

enum { NEAR = 64, TRAP_FLAG = 0x100, ROOM = 1 << 26 };
enum kind { MAPPED, STORE, PERSIST, FLUSH };

static uint8_t *image, *trace;
static size_t length, written;

static void note(enum kind kind, size_t offset, size_t count, const void *bytes)
{
    uint64_t head[3] = {kind, offset, count};
    if (written + sizeof head + count > ROOM)
        _Exit(5);
    memcpy(trace + written, head, sizeof head);
    written += sizeof head;
    if (bytes != NULL) {
        memcpy(trace + written, bytes, count);
        written += count;
    }
}

static uint8_t kept[2 * NEAR];
static size_t stored_to, near_first, near_end;

static void before_store(int number, siginfo_t *info, void *context)
{
    (void)number;
    size_t at = (size_t)((uint8_t *)info->si_addr - image);
    if (at >= length)
        _Exit(3);
    mprotect(image, length, PROT_READ | PROT_WRITE);
    stored_to = at;
    near_first = at < NEAR ? 0 : at - NEAR;
    near_end = at + NEAR < length ? at + NEAR : length;
    memcpy(kept, image + near_first, near_end - near_first);
    ((ucontext_t *)context)->uc_mcontext.gregs[REG_EFL] |= TRAP_FLAG;
}

/* A store of what is there already changes no byte: its count is 0. */
static void after_store(int number, siginfo_t *info, void *context)
{
    (void)number, (void)info;
    size_t first = near_end, last = 0;
    for (size_t i = near_first; i < near_end; i++)
        if (image[i] != kept[i - near_first]) {
            first = first == near_end ? i : first;
            last = i;
        }
    if (first < near_end)
        note(STORE, first, last + 1 - first, image + first);
    else
        note(STORE, stored_to, 0, image);
    mprotect(image, length, PROT_READ);
    ((ucontext_t *)context)->uc_mcontext.gregs[REG_EFL] &= ~(greg_t)TRAP_FLAG;
}

void *mmap(void *at, size_t bytes, int allowed, int flags, int file, off_t offset)
{
    void *mapped = (void *)syscall(SYS_mmap, at, bytes, allowed, flags, file, offset);
    if ((flags & MAP_TYPE) == MAP_SHARED && file >= 0 && (allowed & PROT_WRITE) && mapped != MAP_FAILED) {
        trace = (void *)syscall(SYS_mmap, NULL, ROOM, PROT_READ | PROT_WRITE, MAP_PRIVATE | MAP_ANONYMOUS, -1, 0);
        image = mapped, length = bytes;
        note(MAPPED, 0, length, image);
        struct sigaction action = {.sa_flags = SA_SIGINFO};
        action.sa_sigaction = before_store;
        sigaction(SIGSEGV, &action, NULL);
        action.sa_sigaction = after_store;
        sigaction(SIGTRAP, &action, NULL);
        mprotect(image, length, PROT_READ);
    }
    return mapped;
}

int msync(void *from, size_t bytes, int flags)
{
    if (flags == MS_SYNC)
        note(PERSIST, (size_t)((uint8_t *)from - image), bytes, NULL);
    return 0;
}

int fflush(FILE *stream)
{
    int (*next)(FILE *) = (int (*)(FILE *))dlsym(RTLD_NEXT, "fflush");
    if (stream == stdout && image != NULL)
        note(FLUSH, 0, 0, NULL);
    return next(stream);
}

__attribute__((destructor)) static void end(void)
{
    const char *path = getenv("TRACE");
    int file = path == NULL || image == NULL ? -1 : open(path, O_WRONLY | O_CREAT | O_TRUNC, 0600);
    for (size_t done = 0; file >= 0 && done < written;) {
        ssize_t more = write(file, trace + done, written - done);
        if (more <= 0)
            _Exit(6);
        done += (size_t)more;
    }
}
