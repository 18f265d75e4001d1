/* The heap of the WebAssembly modules: the three functions that proved code calls for memory, over the memory after the
   stack.

   A block has a head of 16 bytes with its class. Classes are sizes with two bits after the leading one, from 16 on, so
   at most a quarter of a block is lost. A block that is freed waits in the list of its class. The last block grows in its
   place. There is one thread. */
/* The toolchain's clang comes with no headers. */
typedef __SIZE_TYPE__ size_t;
typedef __UINTPTR_TYPE__ uintptr_t;
#define NULL ((void *)0)

enum { PAGE = 65536, HEAD = 16, CLASSES = 256 };

struct head {
    union {
        struct head *next; /* of a block that waits */
        size_t of;         /* the class of a block in use */
    } is;
    size_t unused;
};

struct tried { /* libc::types::Tried */
    _Bool ok;
    void *p;
};

extern unsigned char __heap_base[];
static struct head *waiting[CLASSES];
static uintptr_t top; /* the end of the last block */

/* The class of a size: class 4k + j is 16 * 2^k * (1 + j/4). */
static size_t class_of(size_t size)
{
    size_t k;

    if (size <= 16)
        return 0;
    k = 59 - (size_t)__builtin_clzl(size - 1); /* 16 * 2^k < size <= 16 * 2^(k + 1) */
    return 4 * k + 1 + ((size - 1 - ((size_t)16 << k)) >> (k + 2));
}

static size_t size_of(size_t class)
{
    size_t k = class / 4;

    return ((size_t)16 << k) + ((class % 4) << (k + 2));
}

/* Whether the memory reaches to an address, if need be after it has grown, by a quarter if there is so much. The result
   of memory.grow isn't read: its -1 is another number after a memory of 64 bits was lowered to one of 32. */
static int reaches(uintptr_t end)
{
    size_t has = __builtin_wasm_memory_size(0), lacks;

    if (end <= has * PAGE)
        return 1;
    lacks = (end - has * PAGE + PAGE - 1) / PAGE;
    __builtin_wasm_memory_grow(0, lacks > has / 4 ? lacks : has / 4);
    if (end <= __builtin_wasm_memory_size(0) * PAGE)
        return 1;
    __builtin_wasm_memory_grow(0, lacks);
    return end <= __builtin_wasm_memory_size(0) * PAGE;
}

__attribute__((export_name("malloc"))) void *malloc(size_t size)
{
    struct head *it;
    size_t class;

    if (size > (size_t)1 << 40)
        return NULL;
    class = class_of(size);
    if ((it = waiting[class]) != NULL) {
        waiting[class] = it->is.next;
    } else {
        if (top == 0)
            top = ((uintptr_t)__heap_base + HEAD - 1) / HEAD * HEAD;
        size = (size_of(class) + HEAD - 1) / HEAD * HEAD;
        if (!reaches(top + HEAD + size))
            return NULL;
        it = (struct head *)top;
        top += HEAD + size;
    }
    it->is.of = class;
    return it + 1;
}

void free(void *block)
{
    struct head *it = (struct head *)block - 1;
    size_t class;

    if (block == NULL)
        return;
    class = it->is.of;
    it->is.next = waiting[class];
    waiting[class] = it;
}

static void *moved(void *block, size_t kept, size_t size)
{
    struct head *it = (struct head *)block - 1;
    size_t class = class_of(size), has = size_of(it->is.of), wants;
    void *to;

    if (size <= has)
        return block;
    if (size > (size_t)1 << 40)
        return NULL;
    has = (has + HEAD - 1) / HEAD * HEAD;
    wants = (size_of(class) + HEAD - 1) / HEAD * HEAD;
    if ((uintptr_t)block + has == top && reaches((uintptr_t)block + wants)) {
        top = (uintptr_t)block + wants;
        it->is.of = class;
        return block;
    }
    if ((to = malloc(size)) == NULL)
        return NULL;
    __builtin_memcpy(to, block, kept);
    free(block);
    return to;
}

/* A block of no bytes has as many as its alignment, which is 16 at most. */
struct tried rattle_alloc(size_t size, size_t align)
{
    void *p = malloc(size == 0 ? align : size);

    return (struct tried){p != NULL, p != NULL ? p : (void *)16};
}

struct tried rattle_realloc(void *block, size_t kept, size_t size, size_t align)
{
    void *p = moved(block, kept, size == 0 ? align : size);

    return (struct tried){p != NULL, p != NULL ? p : (void *)16};
}

void rattle_dealloc(void *block)
{
    free(block);
}
