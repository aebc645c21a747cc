// Pages and processes are not in C11 itself.
#define _DEFAULT_SOURCE
#include "guarded.h"

#include <assert.h>
#include <signal.h>
#include <string.h>
#include <sys/mman.h>
#include <sys/wait.h>
#include <unistd.h>

#include "check.h"

// The exit status of a program that its guard stopped.
#define STOPPED 3

static size_t page_size(void)
{
    return (size_t)sysconf(_SC_PAGESIZE);
}

void guarded_open(struct guarded *g, enum guard guard, size_t n)
{
    size_t page = page_size();
    g->guard = guard;
    g->size = (n + page - 1) / page * page;
    void *map = mmap(NULL, g->size + 2 * page, PROT_READ | PROT_WRITE, MAP_PRIVATE | MAP_ANONYMOUS, -1, 0);
    CHECK(map != MAP_FAILED);
    g->pages = (uint8_t *)map + page;
    CHECK(mprotect(g->pages - page, page, PROT_NONE) == 0);
    CHECK(mprotect(g->pages + g->size, page, PROT_NONE) == 0);
}

void guarded_close(struct guarded *g)
{
    CHECK(munmap(g->pages - page_size(), g->size + 2 * page_size()) == 0);
}

void buffers_open(struct buffers *b, enum guard guard)
{
    guarded_open(&b->message, guard, 1);
    guarded_open(&b->sender_text, guard, 1);
    guarded_open(&b->recipient_text, guard, 1);
    guarded_open(&b->type, guard, 1);
    guarded_open(&b->identifier, guard, 1);
    guarded_open(&b->name, guard, 1);
    guarded_open(&b->space, guard, 1);
    guarded_open(&b->application, guard, 1);
}

void buffers_close(struct buffers *b)
{
    guarded_close(&b->message);
    guarded_close(&b->sender_text);
    guarded_close(&b->recipient_text);
    guarded_close(&b->type);
    guarded_close(&b->identifier);
    guarded_close(&b->name);
    guarded_close(&b->space);
    guarded_close(&b->application);
}

uint8_t *guarded_bytes(const struct guarded *g, size_t n)
{
    assert(n <= g->size);
    return g->guard == GUARD_AFTER ? g->pages + g->size - n : g->pages;
}

uint8_t *guarded_copy(const struct guarded *g, const void *from, size_t n)
{
    uint8_t *to = guarded_bytes(g, n);
    memcpy(to, from, n);
    return to;
}

void guarded_read_only(const struct guarded *g)
{
    CHECK(mprotect(g->pages, g->size, PROT_READ) == 0);
}

void guarded_writable(const struct guarded *g)
{
    CHECK(mprotect(g->pages, g->size, PROT_READ | PROT_WRITE) == 0);
}

static void stopped(int signal_number)
{
    (void)signal_number;
    _exit(STOPPED);
}

// 1 where a program that writes this byte is stopped, else 0.
static int write_stops(volatile uint8_t *byte)
{
    pid_t child = fork();
    CHECK(child >= 0);
    if (child == 0) {
        signal(SIGSEGV, stopped);
        *byte = 0;
        _exit(0);
    }
    int status = 0;
    CHECK(waitpid(child, &status, 0) == child);
    return WIFEXITED(status) && WEXITSTATUS(status) == STOPPED;
}

int guarded_stops(const struct guarded *g)
{
    uint8_t *bytes = guarded_bytes(g, 1);
    return write_stops(g->guard == GUARD_AFTER ? bytes + 1 : bytes - 1);
}

int guarded_stops_writing(const struct guarded *g)
{
    return write_stops(g->pages) && write_stops(g->pages + g->size - 1);
}
