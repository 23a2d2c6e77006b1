/*
 * Random requests to the heap of the WebAssembly module, compared with a model: which blocks are in
 * use, and the bytes in them.
 *
 *     cc -fsanitize=address,undefined tests/web/web_heap.c -o web_heap && ./web_heap [SEEDS]
 *
 * Here the memory is an array. It grows up to a limit that changes, and sometimes code outside the
 * heap grows it. The rules of bindings/web/heap.c are checked on the blocks themselves.
 */
#include <stdio.h>
#include <stdlib.h>
#include <string.h>
#include "../../bindings/web/heap.c"

enum { PAGES = 512, START = 1000, LIVE = 200, STEPS = 4000, EVERY = 32, REGIONS = 64 };

static byte memory[PAGES * PAGE] __attribute__((aligned(PAGE)));
static usize pages, limit;

static struct {
    byte *at;
    usize size;
    unsigned key;
} live[LIVE];
static unsigned count, keys;
/* For each multiple of 16, the number, from 1, of the block in use that owns the bytes there, or 0. */
static unsigned owners[PAGES * PAGE / GRAIN];
static byte *starts[REGIONS];
static unsigned regions;

static unsigned long long state;
static usize step, refusals, moves, joins;

static void wrong(const char *what)
{
    printf("step %lu: %s\n", (unsigned long)step, what);
    exit(1);
}

static usize below(usize bound)
{
    state = state * 6364136223846793005ULL + 1442695040888963407ULL;
    return (usize)(state >> 33) % bound;
}

static byte *memory_start(void)
{
    return memory + START;
}

static byte *memory_end(void)
{
    return memory + pages * PAGE;
}

static void note_region(byte *start)
{
    if (regions == REGIONS)
        wrong("there are too many regions");
    starts[regions++] = start;
}

static _Bool memory_grow(usize more)
{
    if (more > limit - pages)
        return 0;
    if (region_end != memory_end())
        note_region(memory_end());
    pages += more;
    return 1;
}

static struct block *first_of(byte *start)
{
    return (struct block *)(start + ((GRAIN - HEAD - (usize)start) & (GRAIN - 1)));
}

static byte byte_at(unsigned key, usize k)
{
    return (byte)((key * 2654435761u + k * 40503u) >> 7);
}

/* The next byte to check after one: all of the first 256 are checked, and some of the others. */
static usize after(usize k)
{
    return k < 256 ? k + 1 : k + 509;
}

static void fill(unsigned which)
{
    usize k, size = live[which].size;
    for (k = 0; k < size; k = after(k))
        live[which].at[k] = byte_at(live[which].key, k);
    if (size)
        live[which].at[size - 1] = byte_at(live[which].key, size - 1);
}

static void check_front(unsigned which, usize size)
{
    usize k;
    for (k = 0; k < size; k = after(k))
        if (live[which].at[k] != byte_at(live[which].key, k))
            wrong("a block has other bytes than its owner wrote");
}

static void check_bytes(unsigned which)
{
    usize size = live[which].size;
    check_front(which, size);
    if (size && live[which].at[size - 1] != byte_at(live[which].key, size - 1))
        wrong("a block has another last byte than its owner wrote");
}

/* Each block of a list is free, has the class of the list, and is linked both ways. */
static usize listed(void)
{
    usize all = 0;
    unsigned level, split;
    for (level = 0; level < LEVELS; level++) {
        for (split = 0; split < SPLITS; split++) {
            struct block *block = lists[level][split], *before = 0;
            if (!(splits_listed[level] >> split & 1) != !block)
                wrong("a bit doesn't say whether a list has a block");
            for (; block; before = block, block = block->next, all++) {
                struct class class = class_of(size_of(block));
                if (!(block->head & FREE) || class.level != level || class.split != split)
                    wrong("a list has a block that isn't free or is of another class");
                if (block->previous != before)
                    wrong("a block has another one before it in its list");
            }
        }
        if (!(levels_listed >> level & 1) != !splits_listed[level])
            wrong("a bit doesn't say whether a level has a list");
    }
    return all;
}

/* The blocks of all regions: how many are free, the largest free one, and the bytes of all blocks. */
static struct summary {
    usize free, largest, bytes;
} blocks(void)
{
    struct summary all = {0, 0, 0};
    usize used = 0;
    unsigned region;
    for (region = 0; region < regions; region++) {
        struct block *block = first_of(starts[region]);
        usize before = 0; /* the size of a free block before this one */
        for (;; block = block_after(block)) {
            usize size = size_of(block);
            if (!(block->head & AFTER_FREE) != !before || (before && *size_before(block) != before))
                wrong("a block doesn't know of the free one before it");
            if (size == 0)
                break;
            if (size < LEAST || (byte *)block + size > memory_end() - HEAD)
                wrong("a block has a size that no block has");
            before = block->head & FREE ? size : 0;
            if (before) {
                if (block->head & AFTER_FREE)
                    wrong("two free blocks are neighbours");
                all.free++;
                all.bytes += size;
                all.largest = size > all.largest ? size : all.largest;
            } else {
                unsigned owner = owners[((byte *)bytes_of(block) - memory) / GRAIN];
                if (!owner || live[owner - 1].at != bytes_of(block))
                    wrong("a block in use is nobody's");
                if (live[owner - 1].size + HEAD > size)
                    wrong("a block in use is too small");
                used++;
            }
        }
        if (block->head & FREE)
            wrong("the last block of a region is free");
    }
    if (used != count)
        wrong("a block in use isn't among those of the regions");
    return all;
}

static void check(void)
{
    if (blocks().free != listed())
        wrong("a free block isn't listed, or twice");
}

/* Memory may be refused only if no free block is large enough and the memory can't grow enough. */
static void check_refusal(usize size)
{
    usize need = size_for(size), at_end = region_end ? free_at_end() : 0;
    usize least = need - (at_end < need ? at_end : need);
    if (!need)
        return;
    if (blocks().largest >= need)
        wrong("memory is refused though a free block is large enough");
    least += region_end == memory_end() ? 0 : 2 * GRAIN;
    if ((least + PAGE - 1) / PAGE <= limit - pages)
        wrong("memory is refused though it could grow");
    refusals++;
}

static usize some_size(void)
{
    static const usize bounds[] = {40, 40, 40, 300, 300, 3000, 40000, 400000, 4000000};
    if (below(10) == 0)
        return (1 + below(40)) * PAGE - below(64);
    return below(bounds[below(sizeof bounds / sizeof *bounds)]);
}

static void own(unsigned which, void *at, usize size)
{
    if ((usize)at % GRAIN || (byte *)at < memory_start() || (byte *)at + size > memory_end())
        wrong("an address isn't a multiple of 16 in the memory");
    live[which].at = at;
    live[which].size = size;
    owners[((byte *)at - memory) / GRAIN] = which + 1;
}

static void some_alloc(void)
{
    usize size = some_size();
    _Bool is_first = !region_end, is_for_caller = below(8) == 0;
    struct tried got = {0, nothing};
    if (is_for_caller) {
        got.address = heap_alloc(size);
        got.is_done = got.address != 0;
    } else {
        got = rattle_alloc(size, 1u << below(5));
    }
    if (is_first && region_end)
        note_region(memory_start());
    if (!got.is_done) {
        if (!is_for_caller && got.address != nothing)
            wrong("a refusal has an address");
        check_refusal(size);
        return;
    }
    live[count].key = ++keys;
    own(count, got.address, size);
    fill(count++);
}

static void some_realloc(unsigned which)
{
    usize old = live[which].size, size = some_size(), kept;
    byte *at = live[which].at;
    struct tried got;
    if (below(3) == 0)
        size = old + below(old + 100);
    kept = below(2) ? (old < size ? old : size) : below((old < size ? old : size) + 1);
    got = rattle_realloc(at, kept, size, 8);
    if (!got.is_done) {
        check_bytes(which);
        check_refusal(size);
        return;
    }
    owners[(at - memory) / GRAIN] = 0;
    own(which, got.address, size);
    check_front(which, kept);
    fill(which);
    moves += got.address != at;
    joins += got.address == at && size > old + LEAST;
}

static void some_free(unsigned which)
{
    check_bytes(which);
    owners[(live[which].at - memory) / GRAIN] = 0;
    if (below(8))
        rattle_dealloc(live[which].at);
    else
        heap_free(live[which].at);
    count--;
    if (which != count) {
        live[which] = live[count];
        owners[(live[which].at - memory) / GRAIN] = which + 1;
    }
}

static void some_step(void)
{
    usize roll = below(1000);
    if (roll < 2 && pages < limit && regions && regions < REGIONS - 2) {
        pages++; /* grown by other code: these bytes belong to no block */
    } else if (roll < 8) {
        limit = pages + below(PAGES - pages + 1);
    } else if (roll < 20) {
        usize huge = (usize)1 << (48 + below(16));
        if (rattle_alloc(~(usize)0 - below(1000), 1).is_done || heap_alloc(huge))
            wrong("a size is granted that no block has");
    } else if (roll < 450 && count < LIVE) {
        some_alloc();
    } else if (count && roll < 650) {
        some_realloc((unsigned)below(count));
    } else if (count) {
        some_free((unsigned)below(count));
    }
}

static void start_anew(unsigned long long seed)
{
    memset(lists, 0, sizeof lists);
    memset(splits_listed, 0, sizeof splits_listed);
    memset(owners, 0, sizeof owners);
    levels_listed = 0;
    region_end = 0;
    count = keys = regions = 0;
    state = seed;
    pages = below(2) ? 1 : 1 + below(20);
    limit = pages + below(PAGES - pages + 1);
    memset(memory, (int)below(256), PAGE);
}

/* After all blocks are freed, each region is one free block, which one request can take. */
static void check_end(void)
{
    struct summary all;
    while (count)
        some_free((unsigned)below(count));
    check();
    all = blocks();
    if (all.free != regions)
        wrong("what is free isn't joined");
    limit = pages;
    if (regions && !rattle_alloc(all.largest - HEAD, 16).is_done)
        wrong("the largest free block can't be taken");
}

int main(int argc, char **argv)
{
    unsigned long long seed, seeds = argc > 1 ? strtoull(argv[1], 0, 10) : 40;
    for (seed = 1; seed <= seeds; seed++) {
        start_anew(seed * 7919);
        for (step = 0; step < STEPS; step++) {
            some_step();
            if (step % EVERY == 0)
                check();
        }
        check_end();
    }
    printf("%llu runs of %d steps: %lu refusals, %lu moves, %lu resized in place\n", seeds, STEPS,
           (unsigned long)refusals, (unsigned long)moves, (unsigned long)joins);
    return 0;
}
