// The heap of the module: blocks of powers of two, with a list of free blocks for each power, over memory that grows. It stands in
// place of the C library's malloc. Nothing proves it.
typedef __SIZE_TYPE__ size_t;
typedef unsigned char byte;
extern byte __heap_base;

enum { POWERS = 40, LEAST = 5, BEFORE = 16, PAGE = 65536, PAGES_AT_ONCE = 64 };

static void *free_blocks[POWERS];
static size_t top, end;

// A block has 16 bytes before it, the first of which is its power.
static int power_of(size_t size) {
    int power = LEAST;
    while (((size_t)1 << power) < size + BEFORE) power++;
    return power;
}

static int grow(size_t pages) {
    if (__builtin_wasm_memory_grow(0, pages) == (size_t)-1) return 0;
    end += pages * PAGE;
    return 1;
}

static void *fresh(int power) {
    size_t size = (size_t)1 << power;
    if (top == 0) {
        top = ((size_t)&__heap_base + 15) & ~(size_t)15;
        end = __builtin_wasm_memory_size(0) * PAGE;
    }
    if (size > end - top) {
        size_t pages = (size - (end - top) + PAGE - 1) / PAGE;
        if (!(pages < PAGES_AT_ONCE && grow(PAGES_AT_ONCE)) && !grow(pages)) return 0;
    }
    byte *at = (byte *)top;
    top += size;
    *at = (byte)power;
    return at + BEFORE;
}

void *heap_take(size_t size) {
    if (size > (size_t)1 << (POWERS - 2)) return 0;
    int power = power_of(size);
    void *at = free_blocks[power];
    if (at == 0) return fresh(power);
    free_blocks[power] = *(void **)at;
    return at;
}

void heap_give(void *at) {
    int power = ((byte *)at)[-BEFORE];
    *(void **)at = free_blocks[power];
    free_blocks[power] = at;
}

void *heap_retake(void *at, size_t size) {
    size_t had = ((size_t)1 << ((byte *)at)[-BEFORE]) - BEFORE;
    if (size <= had) return at;
    void *more = heap_take(size);
    if (more == 0) return 0;
    __builtin_memcpy(more, at, had);
    heap_give(at);
    return more;
}
