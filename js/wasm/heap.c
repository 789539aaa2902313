/* The memory of the module: an allocator over WebAssembly's linear memory, which gives back and joins.

   Blocks lie one behind the other from __heap_base to the end of the memory. Each begins with a head of 16 bytes: the size
   of the block in front, and its own with a bit for whether it is used. A free block is in the list of its size class, of
   which each power of two has eight; a request looks in the first class of which every block is large enough, so that it
   takes the same time however many blocks there are (TLSF, Masmano et al. 2004). Before the memory grows, its own class is
   searched for one that fits. A block that is given back is joined with free neighbours. The last head is that of an empty block that is used, where the memory grows. */

typedef __UINT64_TYPE__ u64;
typedef __UINT32_TYPE__ u32;
typedef __UINT8_TYPE__ u8;

#define HEAD 16UL
#define LEAST 32UL
#define PAGE 65536UL
/* The memory is lowered to 32 bits: nothing greater can be had. */
#define MOST (1UL << 31)
#define CLASSES 256

struct block {
    u64 before;                    /* bytes of the block in front, with its head; 0 where there is none */
    u64 size;                      /* bytes, with this head. The lowest bit: whether it is used */
    struct block *next, *previous; /* in the list of a free block */
};

extern u8 __heap_base;
void *memcpy(void *to, const void *from, u64 len);

static struct block *lists[CLASSES];
static u64 filled[CLASSES / 64]; /* a bit for each list that is not empty */
static struct block *end;        /* the last head */
static u64 limit = ~0UL;         /* bytes that the memory may have */

static u64 size_of(const struct block *block)
{
    return block->size & ~1UL;
}
static int is_used(const struct block *block)
{
    return (int)(block->size & 1);
}
static struct block *behind(struct block *block)
{
    return (struct block *)((u8 *)block + size_of(block));
}
static struct block *front(struct block *block)
{
    return (struct block *)((u8 *)block - block->before);
}

/* The class of a size: the power of two, and the three bits below its highest one. */
static u32 class_of(u64 size)
{
    u32 power = 63 - (u32)__builtin_clzl(size);
    return power << 3 | ((u32)(size >> (power - 3)) & 7);
}

static void insert(struct block *block)
{
    u32 class = class_of(block->size);
    block->previous = 0;
    block->next = lists[class];
    if (block->next) {
        block->next->previous = block;
    }
    lists[class] = block;
    filled[class / 64] |= 1UL << class % 64;
}

static void take_out(struct block *block)
{
    u32 class = class_of(block->size);
    if (block->next) {
        block->next->previous = block->previous;
    }
    if (block->previous) {
        block->previous->next = block->next;
    } else {
        lists[class] = block->next;
    }
    if (!lists[class]) {
        filled[class / 64] &= ~(1UL << class % 64);
    }
}

/* Sets the size of a block, and tells it to the one behind. */
static void set_size(struct block *block, u64 size, int used)
{
    block->size = size | (u64)used;
    behind(block)->before = size;
}

/* Makes a block free, and joins it with free neighbours. */
static void release(struct block *block)
{
    struct block *next = behind(block);
    u64 size = size_of(block);
    if (!is_used(next)) {
        take_out(next);
        size += size_of(next);
    }
    if (block->before && !is_used(front(block))) {
        block = front(block);
        take_out(block);
        size += size_of(block);
    }
    set_size(block, size, 0);
    insert(block);
}

/* Cuts what is behind the first bytes of a used block, where it is enough for a block. */
static void cut(struct block *block, u64 size)
{
    u64 rest = size_of(block) - size;
    if (rest >= LEAST) {
        set_size(block, size, 1);
        set_size(behind(block), rest, 1);
        release(behind(block));
    }
}

/* Lets the memory grow by so many bytes or more. Where it cannot, a memory that was lowered to 32 bits answers 2^32 - 1. */
static int grow(u64 size)
{
    u64 pages = (size + PAGE - 1) / PAGE + 4, now = __builtin_wasm_memory_size(0);
    struct block *old = end;
    if ((now + pages) * PAGE > limit || (u32)__builtin_wasm_memory_grow(0, pages) == ~0U) {
        return 0;
    }
    end = (struct block *)(((now + pages) * PAGE) - HEAD);
    end->size = 1;
    set_size(old, (u64)((u8 *)end - (u8 *)old), 1);
    release(old);
    return 1;
}

/* The memory behind the module's own data is the first free block. */
static void begin(void)
{
    struct block *first = (struct block *)(((u64)&__heap_base + 15) & ~15UL);
    end = (struct block *)(__builtin_wasm_memory_size(0) * PAGE - HEAD);
    if ((u8 *)end < (u8 *)first + LEAST) {
        end = first;
        end->size = 1;
        return;
    }
    end->size = 1;
    first->before = 0;
    set_size(first, (u64)((u8 *)end - (u8 *)first), 0);
    insert(first);
}

/* The first block of the size's own class that is large enough, or 0. */
static struct block *find_close(u64 size)
{
    struct block *block = lists[class_of(size)];
    while (block && size_of(block) < size) {
        block = block->next;
    }
    return block;
}

/* A free block of this size or more, or 0. */
static struct block *find(u64 size)
{
    u64 up =
        size + (1UL << (60 - __builtin_clzl(size))) - 1; /* into the first class of which each block is large enough */
    u32 class = class_of(up);
    u64 bits = filled[class / 64] & (~0UL << class % 64);
    for (u32 word = class / 64; word < CLASSES / 64; word++, bits = word < CLASSES / 64 ? filled[word] : 0) {
        if (bits) {
            return lists[word * 64 + (u32)__builtin_ctzl(bits)];
        }
    }
    return find_close(size);
}

static u64 block_size(u64 len)
{
    u64 size = (len + HEAD + 15) & ~15UL;
    return size < LEAST ? LEAST : size;
}

#ifdef YARROWDOOR_TEST
/* For tests: which allocation is refused, counted from 1; 0 for none. */
static u32 refused;

static int is_refused(void)
{
    return refused && --refused == 0;
}

/* Refuses one allocation, the one so many from now on. */
__attribute__((export_name("refuse"))) void refuse(u32 which)
{
    refused = which;
}

/* How many allocations were left to the refused one. */
__attribute__((export_name("refuse_left"))) u32 refuse_left(void)
{
    return refused;
}
#else
static int is_refused(void)
{
    return 0;
}
#endif

static void *take(u64 len)
{
    u64 size = block_size(len);
    struct block *block;
    if (len > MOST || is_refused()) {
        return 0;
    }
    if (!end) {
        begin();
    }
    block = find(size);
    if (!block) {
        block = grow(size) ? find(size) : 0;
    }
    if (!block) {
        return 0;
    }
    take_out(block);
    set_size(block, size_of(block), 1);
    cut(block, size);
    return (u8 *)block + HEAD;
}

static void give(void *place)
{
    if (place) {
        release((struct block *)((u8 *)place - HEAD));
    }
}

static void *resize(void *place, u64 old, u64 len)
{
    struct block *block = (struct block *)((u8 *)place - HEAD);
    void *other;
    if (len <= MOST && block_size(len) <= size_of(block) && !is_refused()) {
        cut(block, block_size(len));
        return place;
    }
    other = take(len);
    if (other) {
        memcpy(other, place, old < len ? old : len);
        give(place);
    }
    return other;
}

/* ---- what the proved code asks for, as the kit's glue for malloc gives it: whether there is memory, and where */

struct given {
    u64 is_there;
    u64 place;
};

static u8 nothing;

static struct given given(void *place)
{
    struct given it = {place != 0, place ? (u64)place : (u64)&nothing};
    return it;
}

struct given rattle_alloc(u64 size, u64 align)
{
    return given(take(size ? size : align));
}

struct given rattle_realloc(void *place, u64 old, u64 size, u64 align)
{
    return given(resize(place, old, size ? size : align));
}

void rattle_dealloc(void *place)
{
    give(place);
}

/* ---- what JavaScript asks for, by numbers of 32 bits */

/* Memory of so many bytes at a multiple of 16, or 0. */
__attribute__((export_name("alloc"))) u32 yarrowdoor_alloc(u32 len)
{
    return (u32)(u64)take(len);
}

/* Gives memory back. */
__attribute__((export_name("dealloc"))) void yarrowdoor_dealloc(u32 place)
{
    give((void *)(u64)place);
}

/* Sets how many bytes the memory may have in all, with the stack and the module's data. What it has is kept. */
__attribute__((export_name("limit"))) void yarrowdoor_limit(double most)
{
    limit = most >= 4294967296.0 ? ~0UL : (u64)most;
}

#ifdef YARROWDOOR_TEST
/* For tests: as rattle_realloc. */
__attribute__((export_name("realloc"))) u32 yarrowdoor_realloc(u32 place, u32 old, u32 len)
{
    return (u32)(u64)resize((void *)(u64)place, old, len);
}
#endif
