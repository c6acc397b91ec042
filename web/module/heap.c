/* The heap of the module: blocks of a power of two bytes, with a list of free ones for each power. Not proved.
 * It is to the proved code what the kit's liblibc_c.a is on x86-64, by the same three functions. Each alignment that
 * they are asked for divides 16: so their contracts require. */
typedef unsigned long long u64;
typedef struct Block { /* lies right before what is handed out, and is of 16 bytes */
    u64 power;
    struct Block *next; /* while the block is free */
} Block;
typedef struct {
    u64 ok;   /* 0 or 1, in all its bytes: the proved code may read one or all */
    void *at; /* never null: where nothing was taken, nowhere */
} Tried;

enum { LEAST = 5, POWERS = 40, PAGE = 16 }; /* powers of two: of the smallest block, past the largest, of a page */
#define EXPORT(name) __attribute__((export_name(#name)))

extern char __heap_base; /* (the linker's) where the stack and the constants end */
static Block *unused[POWERS];
static u64 top;          /* where what was never handed out begins; 0 before the first block */
static u64 most = ~0ull; /* no block goes past this place */
static u64 live, peak;   /* bytes of the blocks that are out, now and at most */
static char nowhere[16];

/* For tests: the bytes that are out, how many they ever were, and a bound for the heap. */
EXPORT(heap_live) u64 heap_live(void) { return live; }
EXPORT(heap_peak) u64 heap_peak(void) { return peak; }
EXPORT(heap_most) void heap_most(u64 place) { most = place; }

/* The power of the smallest block that holds so many bytes, or POWERS where none does. */
static u64 power_of(u64 bytes) {
    if (bytes >> (POWERS - 2)) return POWERS;
    bytes += sizeof(Block);
    return bytes <= 1ull << LEAST ? LEAST : 64 - __builtin_clzll(bytes - 1);
}

/* A block that was never used before, or null where the memory can't grow. */
static Block *fresh(u64 power) {
    u64 start = top ? top : ((u64)&__heap_base + 15) & ~15ull, end = start + (1ull << power);
    u64 have = (u64)__builtin_wasm_memory_size(0) << PAGE;
    if (end > most) return 0;
    if (end > have && __builtin_wasm_memory_grow(0, (end - have + (1 << PAGE) - 1) >> PAGE) == -1ul) return 0;
    top = end;
    Block *block = (Block *)start;
    block->power = power;
    return block;
}

/* The block becomes the first unused one of its power. */
static void keep(Block *block) {
    block->next = unused[block->power];
    unused[block->power] = block;
}

/* A block that was given back, or null. */
static Block *again(u64 power) {
    Block *block = unused[power];
    if (block) unused[power] = block->next;
    return block;
}

/* The first part of the smallest larger block that was given back, or null. Its other half is kept, and the other half
 * of that half, and so on. */
static Block *cut(u64 power) {
    u64 larger = power;
    Block *block = 0;
    while (!block && ++larger < POWERS) block = again(larger);
    if (!block) return 0;
    while (larger-- > power) {
        Block *half = (Block *)((u64)block + (1ull << larger));
        half->power = larger;
        keep(half);
    }
    block->power = power;
    return block;
}

/* So many bytes, or null. JavaScript takes those for what it hands over by this, too. Larger blocks are cut only where
 * the memory can't grow, since nothing puts their parts together again before all is given back. */
EXPORT(heap_take) void *heap_take(u64 bytes) {
    u64 power = power_of(bytes);
    if (power == POWERS) return 0;
    Block *block = again(power);
    if (!block) block = fresh(power);
    if (!block) block = cut(power);
    if (!block) return 0;
    live += 1ull << power;
    if (live > peak) peak = live;
    return block + 1;
}

EXPORT(heap_give) void heap_give(void *at) {
    Block *block = (Block *)at - 1;
    live -= 1ull << block->power;
    keep(block);
    if (live) return;
    /* nothing is out: the whole heap is one unused part again */
    top = 0;
    for (int power = 0; power < POWERS; power++) unused[power] = 0;
}

static Tried tried(void *at) { return (Tried){at != 0, at ? at : nowhere}; }

Tried rattle_alloc(u64 bytes, u64 align) { return tried(heap_take(bytes)); }

void rattle_dealloc(void *at) { heap_give(at); }

/* A place for so many bytes, with those that were kept at the old one, which is then free; or the old one as it was. */
Tried rattle_realloc(void *at, u64 kept, u64 bytes, u64 align) {
    if (power_of(bytes) == ((Block *)at)[-1].power) return tried(at);
    void *to = heap_take(bytes);
    if (to) {
        __builtin_memcpy(to, at, kept < bytes ? kept : bytes);
        heap_give(at);
    }
    return tried(to);
}
