/* The machine of the program `desk` in a WebAssembly module: the rules and the script lie in memory, and what it writes stays there. Nothing is
 * imported from the host. The program is compiled for the 64-bit addresses of the other processor (tools/run release.page). */
typedef unsigned long size_t;
typedef long ssize_t;
typedef unsigned char byte;
#define EXPORT(name) __attribute__((export_name(#name), visibility("default")))

enum { NO_ENTRY = 2, BAD_FILE = 9, NO_SPACE = 28 };

/* ---- memory: blocks by powers of two and halves between them, in lists of free ones */

extern byte __heap_base;
static size_t top, end;
static void *free_blocks[128];
static size_t memory_used, memory_most, memory_max;

static int class_of(size_t n, size_t *size)
{
    size_t at = 16;
    int it = 0;
    while (at < n) {
        if (at + at / 2 >= n && at >= 32) {
            *size = at + at / 2;
            return it + 1;
        }
        at *= 2;
        it += 2;
    }
    *size = at;
    return it;
}

static void *take(size_t n)
{
    size_t size;
    int it = class_of(n + 16, &size);
    byte *at = free_blocks[it];
    if (at) {
        free_blocks[it] = *(void **)(at + 16);
    } else {
        if (!top)
            top = ((size_t)&__heap_base + 15) & ~15ul, end = __builtin_wasm_memory_size(0) * 65536;
        if (end - top < size) {
            size_t pages = (size - (end - top) + 65535) / 65536;
            size_t more = end / 65536 / 4;
            if (more < pages)
                more = pages;
            if (__builtin_wasm_memory_grow(0, more) == (size_t)-1) {
                if (__builtin_wasm_memory_grow(0, pages) == (size_t)-1)
                    return 0;
                more = pages;
            }
            end += more * 65536;
        }
        at = (byte *)top;
        top += size;
    }
    *(size_t *)at = n;
    *(size_t *)(at + 8) = it;
    return at + 16;
}

static void give(void *block)
{
    byte *at = (byte *)block - 16;
    size_t it = *(size_t *)(at + 8);
    *(void **)(at + 16) = free_blocks[it];
    free_blocks[it] = at;
}

/* One instruction of the processor each; what is copied may overlap. */
#define COPIED(to, from, n) \
    __asm__ volatile("local.get %0\nlocal.get %1\nlocal.get %2\nmemory.copy 0, 0" : : "r"(to), "r"(from), "r"(n))

void *memcpy(void *to, const void *from, size_t n)
{
    COPIED(to, from, n);
    return to;
}

void *memmove(void *to, const void *from, size_t n)
{
    COPIED(to, from, n);
    return to;
}

void *memset(void *to, int x, size_t n)
{
    __asm__ volatile("local.get %0\nlocal.get %1\nlocal.get %2\nmemory.fill 0" : : "r"(to), "r"(x), "r"(n));
    return to;
}

struct tried { unsigned long ok; void *at; };
static const struct tried refused = {0, (void *)16};

static int counts(size_t more, size_t less)
{
    if (memory_used - less + more > memory_max)
        return 0;
    memory_used += more - less;
    if (memory_most < memory_used)
        memory_most = memory_used;
    return 1;
}

struct tried rattle_alloc(size_t n, size_t align)
{
    n = n ? n : align;
    if (!counts(n, 0))
        return refused;
    void *at = take(n);
    if (!at) {
        memory_used -= n;
        return refused;
    }
    return (struct tried){1, at};
}

struct tried rattle_realloc(void *block, size_t kept, size_t n, size_t align)
{
    size_t old = *(size_t *)((byte *)block - 16);
    n = n ? n : align;
    if (!counts(n, old))
        return refused;
    void *at = take(n);
    if (!at) {
        memory_used += old - n;
        return refused;
    }
    memcpy(at, block, kept < n ? kept : n);
    give(block);
    return (struct tried){1, at};
}

void rattle_dealloc(void *block)
{
    memory_used -= *(size_t *)((byte *)block - 16);
    give(block);
}

/* ---- sums of 128 bits */

typedef unsigned long u64;
typedef union { unsigned __int128 whole; struct { u64 low, high; } half; } wide;

static wide of(u64 low, u64 high) { wide it; it.half.low = low; it.half.high = high; return it; }

unsigned __int128 __ashlti3(unsigned __int128 a, int n)
{
    wide it = {a};
    if (!n)
        return a;
    return (n < 64 ? of(it.half.low << n, it.half.high << n | it.half.low >> (64 - n)) : of(0, it.half.low << (n - 64))).whole;
}

unsigned __int128 __lshrti3(unsigned __int128 a, int n)
{
    wide it = {a};
    if (!n)
        return a;
    return (n < 64 ? of(it.half.low >> n | it.half.high << (64 - n), it.half.high >> n) : of(it.half.high >> (n - 64), 0)).whole;
}

unsigned __int128 __multi3(unsigned __int128 a, unsigned __int128 b)
{
    wide x = {a}, y = {b};
    u64 p = x.half.low >> 32, q = x.half.low & 0xffffffff, r = y.half.low >> 32, s = y.half.low & 0xffffffff;
    u64 low = q * s, first = p * s + (low >> 32), second = q * r + (first & 0xffffffff);
    return of(second << 32 | (low & 0xffffffff), p * r + (first >> 32) + (second >> 32) + x.half.high * y.half.low + x.half.low * y.half.high).whole;
}

unsigned __int128 __udivti3(unsigned __int128 a, unsigned __int128 b)
{
    wide x = {a}, y = {b}, quotient = of(0, 0), rest = of(0, 0);
    if (!x.half.high && !y.half.high)
        return of(x.half.low / y.half.low, 0).whole;
    for (int i = 127; i >= 0; i--) {
        u64 bit = i < 64 ? x.half.low >> i & 1 : x.half.high >> (i - 64) & 1;
        rest = of(rest.half.low << 1 | bit, rest.half.high << 1 | rest.half.low >> 63);
        quotient = of(quotient.half.low << 1, quotient.half.high << 1 | quotient.half.low >> 63);
        if (rest.half.high > y.half.high || (rest.half.high == y.half.high && rest.half.low >= y.half.low)) {
            u64 low = rest.half.low - y.half.low;
            rest = of(low, rest.half.high - y.half.high - (rest.half.low < y.half.low));
            quotient.half.low |= 1;
        }
    }
    return quotient.whole;
}

/* ---- the rules, the script, the output, the words */

#define RULES_FILE 3
#define WORD_COUNT 3

static const char *const words[WORD_COUNT] = {"desk", "--text", "rules"};
static byte *rules, *script, *output;
static size_t rules_len, rules_at, script_len, script_at, output_len, output_room;
static int error;

static ssize_t fail(int why)
{
    error = why;
    return -1;
}

/* Takes what there is from here on. */
static ssize_t taken(void *into, size_t room, const byte *from, size_t len, size_t *at)
{
    size_t left = *at < len ? len - *at : 0, n = left < room ? left : room;
    memcpy(into, from + *at, n);
    *at += n;
    return (ssize_t)n;
}

ssize_t read(int number, void *into, size_t room)
{
    if (number == 0)
        return taken(into, room, script, script_len, &script_at);
    return number == RULES_FILE ? taken(into, room, rules, rules_len, &rules_at) : fail(BAD_FILE);
}

ssize_t write(int number, const void *from, size_t n)
{
    if (number != 1)
        return (ssize_t)n;
    if (output_room - output_len < n) {
        size_t room = output_room ? output_room : 65536;
        while (room - output_len < n)
            room *= 2;
        byte *more = take(room);
        if (!more)
            return fail(NO_SPACE);
        if (output_len)
            memcpy(more, output, output_len);
        if (output)
            give(output);
        output = more, output_room = room;
    }
    memcpy(output + output_len, from, n);
    output_len += n;
    return (ssize_t)n;
}

int open(const char *name, int flags, ...)
{
    const char *wanted = words[WORD_COUNT - 1];
    (void)flags;
    while (*name && *name == *wanted)
        name++, wanted++;
    if (*name || *wanted)
        return (int)fail(NO_ENTRY);
    rules_at = 0;
    return RULES_FILE;
}

long lseek(int number, long to, int whence)
{
    if (number != RULES_FILE)
        return fail(BAD_FILE);
    rules_at = (size_t)(to + (whence == 0 ? 0 : (long)(whence == 1 ? rules_at : rules_len)));
    return (long)rules_at;
}

int close(int number) { return number < 0 ? (int)fail(BAD_FILE) : 0; }

/* There are no files to put: the words name no image. */
int fsync(int number) { return (void)number, (int)fail(BAD_FILE); }
int rename(const char *from, const char *to) { return (void)from, (void)to, (int)fail(NO_ENTRY); }
int unlink(const char *name) { return (void)name, (int)fail(NO_ENTRY); }

void *__sysv_signal(int number, void *handler) { return (void)number, (void)handler, (void *)0; }
int rattle_errno(void) { return error; }
void rattle_set_errno(int it) { error = it; }
size_t rattle_arg_count(void) { return WORD_COUNT; }

ssize_t rattle_arg(size_t i, byte *into, size_t room)
{
    if (i >= WORD_COUNT)
        return -1;
    size_t n = 0;
    for (; words[i][n]; n++) {
        if (n == room)
            return -2;
        into[n] = (byte)words[i][n];
    }
    return (ssize_t)n;
}

/* The start of the program asks whether the processor has what it was compiled for: here it has. */
const void *__x86_get_cpuid_feature_leaf(unsigned leaf)
{
    static const unsigned all[16] = {~0u, ~0u, ~0u, ~0u, ~0u, ~0u, ~0u, ~0u, ~0u, ~0u, ~0u, ~0u, ~0u, ~0u, ~0u, ~0u};
    (void)leaf;
    return all;
}

ssize_t __write(int number, const void *from, size_t n) { return write(number, from, n); }

/* ---- what the page calls */

extern int szp_program_main(int, char **) __asm__("main");

/* A block for so many bytes, or null. */
EXPORT(room) byte *room(size_t n) { return take(n ? n : 1); }

/* One run of the program over rules and a script, in blocks that `room` gave and that are taken back. `most` bounds the bytes that the engine holds.
 * Answers the status. */
EXPORT(run) int run(byte *rules_text, size_t rules_length, byte *lines, size_t lines_length, size_t most)
{
    rules = rules_text, rules_len = rules_length, rules_at = 0;
    script = lines, script_len = lines_length, script_at = 0;
    output_len = 0;
    memory_max = most;
    memory_most = memory_used;
    int status = szp_program_main(0, (void *)0);
    give(rules), give(script);
    return status;
}

EXPORT(output) byte *output_at(void) { return output; }
EXPORT(output_length) size_t output_length(void) { return output_len; }
EXPORT(memory_left) size_t memory_left(void) { return memory_used; }
EXPORT(memory_peak) size_t memory_peak(void) { return memory_most; }
