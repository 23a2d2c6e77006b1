/*
 * The heap of the module of WebAssembly, in place of malloc, realloc and free of a native program.
 *
 * The memory consists of regions. Mostly there is one, which grows at its end; a second one begins
 * only if somebody else grew the memory in between. A region is a row of blocks without gaps, and
 * ends with a block of size 0, which is always in use. A block starts with its head: its size, a
 * multiple of 16, and two flags in the lowest bits. The caller's bytes follow at a multiple of 16.
 * A free block has the links of its list there, and its size once more in its last 8 bytes, where
 * the block after it can read it. A block that is freed is joined with the free blocks before and
 * after it, so two free blocks are never neighbours.
 *
 * Free blocks are listed by size, in SPLITS classes for each power of two, and bits say which lists
 * have a block. A request takes a block of the first class whose blocks are all large enough: a few
 * instructions, whatever is free. Memory is refused only if no free block is large enough and the
 * memory can't grow.
 *
 * tests/web/web_heap.c compiles this file natively, with a memory of its own.
 */
typedef __SIZE_TYPE__ usize;
typedef unsigned char byte;

enum {
    GRAIN = 16,
    HEAD = sizeof(usize),
    LEAST = 4 * sizeof(usize), /* a head, two links and the size at the end */
    PAGE = 65536,
    FREE = 1,
    AFTER_FREE = 2, /* the block before it is free */
    SPLIT_BITS = 4,
    SPLITS = 1 << SPLIT_BITS,
    MOST_BITS = 48, /* no block has 2^48 bytes, and no memory */
    LINEAR_BITS = 8, /* below 2^8 bytes each size has a class of its own */
    LEVELS = MOST_BITS - LINEAR_BITS + 2,
    GROWTH = 1 << 20 /* how much the memory grows at least, if that is granted */
};

struct block {
    usize head;
    struct block *next, *previous;
};

struct class {
    unsigned level, split;
};

/* What the library's calls for memory return. It never reads the address after a refusal. */
struct tried {
    usize is_done; /* 0 or 1 */
    void *address;
};

static struct block *lists[LEVELS][SPLITS];
static usize levels_listed;
static unsigned splits_listed[LEVELS];
/* The end of the last region, where the memory ended when it was last grown here; null at first. */
static byte *region_end;
static byte nothing[GRAIN];

#ifdef __wasm__
extern byte __heap_base;
#define EXPORTED(name) __attribute__((export_name(name)))

static byte *memory_start(void)
{
    return &__heap_base;
}

static byte *memory_end(void)
{
    return (byte *)(__builtin_wasm_memory_size(0) * PAGE);
}

static _Bool memory_grow(usize pages)
{
    return __builtin_wasm_memory_grow(0, pages) != (usize)-1;
}
#else
#define EXPORTED(name)
static byte *memory_start(void);
static byte *memory_end(void);
static _Bool memory_grow(usize pages);
#endif

static usize size_of(const struct block *block)
{
    return block->head & ~(usize)(GRAIN - 1);
}

static struct block *block_after(struct block *block)
{
    return (struct block *)((byte *)block + size_of(block));
}

static usize *size_before(struct block *block)
{
    return (usize *)block - 1;
}

static void *bytes_of(struct block *block)
{
    return (byte *)block + HEAD;
}

static struct block *block_of(void *bytes)
{
    return (struct block *)((byte *)bytes - HEAD);
}

/* The size of a block for this number of bytes, or 0 if there is none. */
static usize size_for(usize bytes)
{
    usize size;
    if (bytes >= ((usize)1 << MOST_BITS) - 2 * GRAIN)
        return 0;
    size = (bytes + HEAD + GRAIN - 1) & ~(usize)(GRAIN - 1);
    return size < LEAST ? LEAST : size;
}

static unsigned highest_bit(usize size)
{
    return 63 - (unsigned)__builtin_clzll(size);
}

/* The class that a block of this size is listed in. */
static struct class class_of(usize size)
{
    struct class class = {0, (unsigned)(size / GRAIN)};
    if (size >> LINEAR_BITS) {
        unsigned high = highest_bit(size);
        class.level = high - LINEAR_BITS + 1;
        class.split = (unsigned)(size >> (high - SPLIT_BITS)) & (SPLITS - 1);
    }
    return class;
}

/* The first class whose blocks all have this size at least. */
static struct class class_for(usize size)
{
    if (size >> LINEAR_BITS)
        size += ((usize)1 << (highest_bit(size) - SPLIT_BITS)) - 1;
    return class_of(size);
}

static void list(struct block *block)
{
    struct class class = class_of(size_of(block));
    struct block **first = &lists[class.level][class.split];
    block->next = *first;
    block->previous = 0;
    if (*first)
        (*first)->previous = block;
    *first = block;
    levels_listed |= (usize)1 << class.level;
    splits_listed[class.level] |= 1u << class.split;
}

static void unlist(struct block *block)
{
    struct class class = class_of(size_of(block));
    if (block->next)
        block->next->previous = block->previous;
    if (block->previous) {
        block->previous->next = block->next;
        return;
    }
    lists[class.level][class.split] = block->next;
    if (!block->next) {
        splits_listed[class.level] &= ~(1u << class.split);
        if (!splits_listed[class.level])
            levels_listed &= ~((usize)1 << class.level);
    }
}

/* Makes `size` bytes at `block`, which no list has, a free block, joined with its neighbours. */
static void release(struct block *block, usize size)
{
    struct block *after = (struct block *)((byte *)block + size);
    if (after->head & FREE) {
        unlist(after);
        size += size_of(after);
    }
    if (block->head & AFTER_FREE) {
        usize before = *size_before(block);
        block = (struct block *)((byte *)block - before);
        unlist(block);
        size += before;
    }
    block->head = size | FREE;
    after = block_after(block);
    *size_before(after) = size;
    after->head |= AFTER_FREE;
    list(block);
}

/* Makes the front of a block, which no list has, one of this size in use, and frees the rest. */
static void use(struct block *block, usize size)
{
    usize all = size_of(block), rest = all - size;
    if (rest >= LEAST) {
        struct block *other = (struct block *)((byte *)block + size);
        block->head = size | (block->head & AFTER_FREE);
        other->head = 0;
        release(other, rest);
    } else {
        block->head = all | (block->head & AFTER_FREE);
        block_after(block)->head &= ~(usize)AFTER_FREE;
    }
}

/* A free block of this size at least, or null: one of a class whose blocks all have it, or else one
   of the class below that has it. */
static struct block *find(usize size)
{
    struct class class = class_for(size);
    unsigned splits = splits_listed[class.level] & (~0u << class.split);
    struct block *block;
    if (!splits) {
        usize levels = levels_listed & (~(usize)0 << (class.level + 1));
        if (levels) {
            class.level = (unsigned)__builtin_ctzll(levels);
            splits = splits_listed[class.level];
        }
    }
    if (splits)
        return lists[class.level][__builtin_ctz(splits)];
    class = class_of(size);
    for (block = lists[class.level][class.split]; block; block = block->next)
        if (size_of(block) >= size)
            break;
    return block;
}

/* Makes a region of the memory from `start` to `end`, which becomes free. */
static void add_region(byte *start, byte *end)
{
    usize skipped = (GRAIN - HEAD - (usize)start) & (GRAIN - 1);
    struct block *first = (struct block *)(start + skipped), *last = (struct block *)(end - HEAD);
    first->head = 0;
    last->head = 0;
    region_end = end;
    release(first, (usize)((byte *)last - (byte *)first));
}

/* Grows the memory by at least this number of bytes, which are free, joined with those at its end. */
static _Bool grow(usize bytes)
{
    byte *end = memory_end();
    struct block *last = (struct block *)(end - HEAD);
    usize least = (bytes + 2 * GRAIN + PAGE - 1) / PAGE, more = GROWTH / PAGE;
    if (end == region_end)
        least = (bytes + PAGE - 1) / PAGE;
    if (least > more || !memory_grow(more)) {
        if (!memory_grow(least))
            return 0;
        more = least;
    }
    if (end != region_end) {
        add_region(end, end + more * PAGE);
        return 1;
    }
    region_end = end + more * PAGE;
    ((struct block *)(region_end - HEAD))->head = 0;
    release(last, more * PAGE);
    return 1;
}

/* How many bytes are free at the end of the memory, next to what it grows by. */
static usize free_at_end(void)
{
    struct block *last = (struct block *)(region_end - HEAD);
    return region_end == memory_end() && last->head & AFTER_FREE ? *size_before(last) : 0;
}

/* As find, and takes the memory over at the first call. */
static struct block *find_first(usize size)
{
    usize start = (usize)memory_start();
    if (!region_end && (usize)memory_end() >= start + LEAST + 2 * GRAIN)
        add_region(memory_start(), memory_end());
    return find(size);
}

/* A block in use for this number of bytes, or null. */
static struct block *take(usize bytes)
{
    usize size = size_for(bytes);
    struct block *block = size ? find_first(size) : 0;
    if (!block && size && grow(region_end ? size - free_at_end() : size))
        block = find(size);
    if (block) {
        unlist(block);
        use(block, size);
    }
    return block;
}

/* Makes a block have this size at least where it is, together with a free one after it. */
static _Bool is_resized(struct block *block, usize size)
{
    struct block *after = block_after(block);
    usize joined = size_of(block) + (after->head & FREE ? size_of(after) : 0);
    if (joined < size)
        return 0;
    if (joined > size_of(block)) {
        unlist(after);
        block->head += size_of(after);
    }
    use(block, size);
    return 1;
}

/* The bytes that a block lacks, if only free bytes are between it and the memory's end; else 0. */
static usize lacks_at_end(struct block *block, usize size)
{
    struct block *after = block_after(block);
    if (after->head & FREE)
        after = block_after(after);
    if (region_end != memory_end() || (byte *)after != region_end - HEAD)
        return 0;
    return size - (usize)((byte *)after - (byte *)block);
}

static struct tried tried(struct block *block)
{
    struct tried tried = {block != 0, block ? bytes_of(block) : nothing};
    return tried;
}

struct tried rattle_alloc(usize bytes, usize alignment);
struct tried rattle_realloc(void *bytes, usize kept, usize wanted, usize alignment);
void rattle_dealloc(void *bytes);
EXPORTED("heap_alloc") void *heap_alloc(usize bytes);
EXPORTED("heap_free") void heap_free(void *bytes);

/* An alignment divides 16. */
struct tried rattle_alloc(usize bytes, usize alignment)
{
    (void)alignment;
    return tried(take(bytes));
}

/* Resizes a block, whose first `kept` bytes stay. After a refusal it is as it was. */
struct tried rattle_realloc(void *bytes, usize kept, usize wanted, usize alignment)
{
    struct block *block = block_of(bytes), *moved;
    usize size = size_for(wanted), lacks;
    (void)alignment;
    if (!size)
        return tried(0);
    if (is_resized(block, size))
        return tried(block);
    lacks = lacks_at_end(block, size);
    if (lacks && !find(size) && grow(lacks) && is_resized(block, size))
        return tried(block);
    moved = take(wanted);
    if (moved) {
        __builtin_memcpy(bytes_of(moved), bytes, kept);
        rattle_dealloc(bytes);
    }
    return tried(moved);
}

void rattle_dealloc(void *bytes)
{
    struct block *block = block_of(bytes);
    release(block, size_of(block));
}

/* For the module's caller: room for what it hands over, or null. */
void *heap_alloc(usize bytes)
{
    struct block *block = take(bytes);
    return block ? bytes_of(block) : 0;
}

void heap_free(void *bytes)
{
    rattle_dealloc(bytes);
}
