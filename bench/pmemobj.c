// libpmemobj: the pages are one object; a round snapshots both lines into the undo log and writes them in place. Run it with
// PMEM_IS_PMEM_FORCE=1 on a memory file system, so that it flushes cache lines as it would on persistent memory.
#include <libpmemobj.h>
#include <stdio.h>
#include <stdlib.h>
#include <string.h>
#include "round.h"

static PMEMobjpool *pool;
static uint64_t (*pages)[LINES][WORDS];

static void fail(void)
{
    fprintf(stderr, "pmemobj: %s\n", pmemobj_errormsg());
    exit(1);
}

void open_store(void)
{
    size_t size = PAGES * sizeof *pages;
    pool = pmemobj_create(path, "rounds", PMEMOBJ_MIN_POOL + 2 * size, 0600);
    if (!pool)
        fail();
    // lines lie on cache lines, as ours do
    PMEMoid root = pmemobj_root(pool, size + 64);
    pages = (void *)(((uintptr_t)pmemobj_direct(root) + 63) / 64 * 64);
    pmemobj_memset_persist(pool, pages, 0, size);
}

void play(const struct put put[2])
{
    TX_BEGIN(pool) {
        for (int i = 0; i < 2; i++)
            pmemobj_tx_add_range_direct(pages[put[i].page][put[i].line], 64);
        for (int i = 0; i < 2; i++)
            memcpy(pages[put[i].page][put[i].line], put[i].word, 64);
    } TX_ONABORT {
        fail();
    } TX_END
}

void show(unsigned page, unsigned line, uint64_t word[WORDS])
{
    memcpy(word, pages[page][line], 64);
}

uint64_t bytes_stored(void)
{
    return 0;
}

void close_store(void)
{
    pmemobj_close(pool);
}
