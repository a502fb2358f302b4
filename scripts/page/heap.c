// The heap of the page's module: what std's `Global` asks of a C library, over WebAssembly's memory.
// Blocks of 16 bytes and up by powers of two; a freed block goes to the list of its size.
typedef unsigned long u64;
typedef struct { u64 ok; void *p; } Tried;
typedef struct Free { struct Free *next; } Free;

extern unsigned char __heap_base;
#define PAGE 65536UL
#define CLASSES 48
static Free *lists[CLASSES];
static u64 top;

static int class_of(u64 n) {
    u64 need = n + 16;
    return need <= 32 ? 5 : 64 - __builtin_clzl(need - 1);
}

static void *take(u64 n) {
    if (n >= 1UL << 40) return 0;
    int c = class_of(n);
    unsigned char *block = (unsigned char *)lists[c];
    if (block) {
        lists[c] = lists[c]->next;
    } else {
        if (!top) top = ((u64)&__heap_base + 15) & ~15UL;
        u64 size = 1UL << c, end = top + size, have = __builtin_wasm_memory_size(0) * PAGE;
        // A refusal is -1, of 64 bits or of the 32 to which the build brings the module.
        if (end > have && __builtin_wasm_memory_grow(0, (end - have + PAGE - 1) / PAGE) >= 0xFFFFFFFFUL) return 0;
        block = (unsigned char *)top;
        top = end;
    }
    *(u64 *)block = c;
    return block + 16;
}

static void drop(void *p) {
    Free *block = (Free *)((unsigned char *)p - 16);
    int c = *(u64 *)block;
    block->next = lists[c];
    lists[c] = block;
}

static unsigned char nothing[16] __attribute__((aligned(16)));

static Tried tried(void *p) {
    Tried t = {p != 0, p ? p : nothing};
    return t;
}

Tried rattle_alloc(u64 n, u64 a) { (void)a; return tried(take(n)); }

Tried rattle_realloc(void *p, u64 kept, u64 n, u64 a) {
    (void)a;
    if (class_of(n) == (int)*(u64 *)((unsigned char *)p - 16)) return tried(p);
    void *q = take(n);
    if (!q) { Tried t = {0, nothing}; return t; }
    __builtin_memcpy(q, p, kept < n ? kept : n);
    drop(p);
    return tried(q);
}

void rattle_dealloc(void *p) { drop(p); }

// For the page: room for what it hands in and takes out.
__attribute__((export_name("page_take"))) void *page_take(u64 n) { return take(n); }
__attribute__((export_name("page_drop"))) void page_drop(void *p) { drop(p); }
