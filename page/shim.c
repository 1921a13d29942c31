/* What the program wants of a C library, for a WebAssembly module: a heap, reading, writing and its words, each by a function that
 * the module imports, and what the compiler calls for numbers of 128 bits. */
typedef unsigned long u64;
typedef unsigned int u32;
typedef unsigned char u8;

/* ---- What is imported ---- */

#define HOST(name) __attribute__((import_module("host"), import_name(name)))
HOST("read") long host_read(int fd, u8 *to, u64 room);
HOST("write") long host_write(int fd, const u8 *from, u64 len);
HOST("open") int host_open(const u8 *path);
HOST("close") int host_close(int fd);
HOST("seek") long host_seek(int fd, long at, int how);
HOST("stat") long host_stat(const u8 *path);        /* the size times 65,536, and the mode */
HOST("arg_count") u64 host_arg_count(void);
HOST("arg") long host_arg(u64 i, u8 *to, u64 room);

/* ---- A heap: blocks of 2^k octets, each after 16 octets that hold k, and a list of free ones for each k ---- */

enum { HEAD = 16, LEAST = 4, MOST = 34, PAGE = 65536, PAGES_AT_ONCE = 16 };
typedef struct { u64 ok; u8 *p; } tried;        /* as the program is answered: whether there is memory, and where */
struct free { struct free *next; };
extern u8 __heap_base;
static u8 *top, *end, nothing;
static struct free *freed[MOST];

static u64 *exponent(u8 *block) { return (u64 *)(block - HEAD); }

/* The memory grows until so many octets are free at its end; 0: it cannot. */
static int grown(u64 need)
{
    if (!top) {
        top = (u8 *)(((u64)&__heap_base + HEAD - 1) & ~(u64)(HEAD - 1));
        end = (u8 *)(__builtin_wasm_memory_size(0) * PAGE);
    }
    if ((u64)(end - top) >= need) return 1;
    u64 pages = (need - (u64)(end - top) + PAGE - 1) / PAGE;
    if (pages < PAGES_AT_ONCE) pages = PAGES_AT_ONCE;
    /* -1 where it cannot, of 64 bits, or, once wasm-opt has lowered it, of 32 */
    if ((u32)__builtin_wasm_memory_grow(0, pages) == (u32)-1) return 0;
    end += pages * PAGE;
    return 1;
}

/* A block of so many octets at least; 0: there is none. */
static u8 *block_of(u64 octets)
{
    u64 k = LEAST;
    while (((u64)1 << k) < octets) if (++k == MOST) return 0;
    if (freed[k]) {
        u8 *again = (u8 *)freed[k];
        freed[k] = freed[k]->next;
        return again;
    }
    u64 need = ((u64)1 << k) + HEAD;
    if (!grown(need)) return 0;
    u8 *block = top + HEAD;
    *exponent(block) = k;
    top += need;
    return block;
}

static tried told(u8 *block)
{
    tried answer = { block != 0, block ? block : &nothing };
    return answer;
}

tried rattle_alloc(u64 octets, u64 align) { return told(block_of(octets ? octets : align)); }

void rattle_dealloc(u8 *block)
{
    struct free *it = (struct free *)block;
    u64 k = *exponent(block);
    it->next = freed[k];
    freed[k] = it;
}

tried rattle_realloc(u8 *block, u64 kept, u64 octets, u64 align)
{
    (void)align;
    if (octets <= (u64)1 << *exponent(block)) return told(block);
    u8 *other = block_of(octets);
    if (other) {
        __builtin_memcpy(other, block, kept < octets ? kept : octets);
        rattle_dealloc(block);
    }
    return told(other);
}

/* ---- Reading and writing: a negative number that the host answers is that of an error ---- */

static int error;
static const struct { int number; const char *text; } errors[] = {
    { 2, "No such file or directory" }, { 5, "Input/output error" }, { 9, "Bad file descriptor" }, { 13, "Permission denied" },
    { 21, "Is a directory" }, { 28, "No space left on device" }, { 32, "Broken pipe" },
};

static long without_error(long answer)
{
    if (answer >= 0) return answer;
    error = (int)-answer;
    return -1;
}

int rattle_errno(void) { return error; }
void rattle_set_errno(int number) { error = number; }
long read(int fd, u8 *to, u64 room) { return without_error(host_read(fd, to, room)); }
long write(int fd, const u8 *from, u64 len) { return without_error(host_write(fd, from, len)); }
long __write(int fd, const u8 *from, u64 len) { return write(fd, from, len); }
long lseek(int fd, long at, int how) { return without_error(host_seek(fd, at, how)); }
int open(const u8 *path, int flags, ...) { (void)flags; return (int)without_error(host_open(path)); }
int close(int fd) { return (int)without_error(host_close(fd)); }

int statx(int folder, const u8 *path, int flags, u32 mask, u8 *to)
{
    enum { SIZE = 256, BASIC = 0x7ff, MODE_AT = 28, SIZE_AT = 40 };
    long found = without_error(host_stat(path));
    (void)folder; (void)flags; (void)mask;
    if (found < 0) return -1;
    __builtin_memset(to, 0, SIZE);
    *(u32 *)to = BASIC;
    to[MODE_AT] = (u8)found;
    to[MODE_AT + 1] = (u8)(found >> 8);
    *(u64 *)(to + SIZE_AT) = (u64)found >> 16;
    return 0;
}

u64 rattle_arg_count(void) { return host_arg_count(); }
long rattle_arg(u64 i, u8 *to, u64 room) { return host_arg(i, to, room); }

int __xpg_strerror_r(int number, u8 *to, u64 room)
{
    enum { ERANGE = 34 };
    const char *text = "Unknown error";
    for (u64 i = 0; i < sizeof errors / sizeof *errors; i++) if (errors[i].number == number) text = errors[i].text;
    for (u64 i = 0; i < room; i++) if (!(to[i] = (u8)text[i])) return 0;
    return ERANGE;
}

/* ---- What a module has no use for: signals, and features of a processor, of which it has all that are asked for ---- */

u64 __sysv_signal(int number, u64 how) { (void)number; (void)how; return 0; }
void *__x86_get_cpuid_feature_leaf(int leaf)
{
    static u32 all[8] = { ~0u, ~0u, ~0u, ~0u, ~0u, ~0u, ~0u, ~0u };
    (void)leaf;
    return all;
}

/* ---- Numbers of 128 bits ---- */

typedef union { unsigned __int128 all; struct { u64 low, high; } part; } wide;

unsigned __int128 __multi3(unsigned __int128 a, unsigned __int128 b)
{
    const u64 half = 0xffffffff;
    wide x = { a }, y = { b }, r;
    u64 x0 = x.part.low & half, x1 = x.part.low >> 32, y0 = y.part.low & half, y1 = y.part.low >> 32;
    u64 low = x0 * y0, middle = x1 * y0 + (low >> 32), other = x0 * y1 + (middle & half);
    r.part.low = (other << 32) | (low & half);
    r.part.high = x1 * y1 + (middle >> 32) + (other >> 32) + x.part.high * y.part.low + x.part.low * y.part.high;
    return r.all;
}

unsigned __int128 __ashlti3(unsigned __int128 a, int by)
{
    wide x = { a }, r;
    if (by == 0) return a;
    if (by & 64) { r.part.high = x.part.low << (by & 63); r.part.low = 0; }
    else { r.part.low = x.part.low << by; r.part.high = (x.part.high << by) | (x.part.low >> (64 - by)); }
    return r.all;
}

unsigned __int128 __lshrti3(unsigned __int128 a, int by)
{
    wide x = { a }, r;
    if (by == 0) return a;
    if (by & 64) { r.part.low = x.part.high >> (by & 63); r.part.high = 0; }
    else { r.part.high = x.part.high >> by; r.part.low = (x.part.low >> by) | (x.part.high << (64 - by)); }
    return r.all;
}
