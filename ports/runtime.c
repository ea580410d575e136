/* What the proved module asks of its machine: memory, words, bytes in and out. The kit's crates libc and os state a contract for each of
   these functions, and the proofs take it for granted; it stands above each as the module relies on it. Nothing here is proved.

   The first part is for every port. The second is for WebAssembly, which has no C library: over what the host gives (host.js) it has what
   the first part and the module ask of one. No headers are read, so that the kit's compiler needs none. */

typedef unsigned char byte;
typedef unsigned long word; /* 64 bits, as in the module */
typedef struct {
    word is_made;
    byte *block;
} tried;

void *malloc(word n);
void *realloc(void *block, word n);
void free(void *block);
int *__errno_location(void);

/* Memory for n bytes, aligned to a, which divides 16; a bytes where n is 0. The answer is whether there was memory, and where. */
tried rattle_alloc(word n, word a)
{
    byte *block = malloc(n ? n : a);
    return (tried){block != 0, block};
}

/* The same for a block that is there: its first `kept` bytes stay as they were. It may move. Where there is no memory, it stays as it was. */
tried rattle_realloc(byte *old, word kept, word n, word a)
{
    byte *block = realloc(old, n ? n : a);
    return (tried){block != 0, block};
}

/* Frees what either of them gave. */
void rattle_dealloc(byte *block) { free(block); }

/* The error of the last call that failed, by Linux's number. */
int rattle_errno(void) { return *__errno_location(); }
void rattle_set_errno(int number) { *__errno_location() = number; }

/* Puts the value of a variable, or that of a number, at `at`: its length, -1 where there is none, -2 where it does not fit. There is none. */
long rattle_env(const char *name, byte *at, word room) { return -1; }
long rattle_env_at(word number, byte *at, word room) { return -1; }

#ifndef __wasm__

static int count;
static char **words;

/* The C library calls it first. */
__attribute__((constructor)) static void keep(int argc, char **argv)
{
    count = argc;
    words = argv;
}

/* Puts word `number` of the command line at `at`, the program's name being word 0: its length, -1 where there is none, -2 where it does not
   fit, and then its first bytes fill the room. */
long rattle_arg(word number, byte *at, word room)
{
    word length = 0;
    if (number >= (word)count) return -1;
    for (const char *from = words[number]; from[length]; length++) {
        if (length == room) return -2;
        at[length] = from[length];
    }
    return length;
}

#else

/* What the host gives (host.js says more). Addresses have 32 bits there, once the memory is lowered. */
#define HOST(name) __attribute__((import_module("msp"), import_name(#name)))
HOST(word) int host_word(unsigned number, unsigned at, unsigned room);
HOST(read) int host_read(unsigned at, unsigned room);
HOST(write) int host_write(int stream, unsigned at, unsigned length);
HOST(grow) int host_grow(unsigned pages);

#define ADDRESS(pointer) ((unsigned)(word)(pointer))
#define MOST_MOVED 0x10000000u /* bytes that one call moves at most */

static int error;

int *__errno_location(void) { return &error; }

/* As above. The host has all words, the program's name among them. */
long rattle_arg(word number, byte *at, word room)
{
    if (number >= MOST_MOVED) return -1;
    return host_word(number, ADDRESS(at), room < MOST_MOVED ? room : MOST_MOVED);
}

/* What a call of the host moved: a number of bytes, or -1 where it failed. */
static long moved(int count)
{
    if (count < 0) error = 5; /* EIO: the program does not ask which */
    return count;
}

/* POSIX's read of standard input: puts bytes at `at` and answers how many, 0 at the end, -1 where it fails. */
long read(int stream, byte *at, word room)
{
    return moved(host_read(ADDRESS(at), room < MOST_MOVED ? room : MOST_MOVED));
}

/* POSIX's write to standard output (1) or standard error (2): how many of the bytes were taken, perhaps fewer than all; -1 where it fails. */
long write(int stream, const byte *at, word length)
{
    return moved(host_write(stream, ADDRESS(at), length < MOST_MOVED ? length : MOST_MOVED));
}
long __write(int stream, const byte *at, word length) { return write(stream, at, length); }

/* That a closed pipe is an error of write, and ends nothing: so it is here. */
long __sysv_signal(int number, long action) { return 0; }

/* What an x86-64 processor can do: all that is asked for. The module asks at its start, and holds no instruction of that processor here. */
const unsigned *__x86_get_cpuid_feature_leaf(unsigned leaf)
{
    static const unsigned all[8] = {~0u, ~0u, ~0u, ~0u, ~0u, ~0u, ~0u, ~0u};
    return all;
}

/* What the host calls. */
int program(void) __asm__("main");
int run(void) { return program(); }

/* Memory: blocks, each behind its head, on the end of what was taken so far or where one of its class was freed. Class c has blocks of
   (4 + c % 4) << c / 4 units of 16 bytes, head and all, so that at most a fifth is given away. */
enum { UNIT = 16, PAGE = 65536, CLASSES = 108 };
typedef struct head {
    word class;
    struct head *next; /* freed before it, of the same class */
} head;

extern byte __heap_base;
static byte *taken_to = &__heap_base;
static head *freed[CLASSES];

static word size_of(word class) { return (4 + class % 4) * UNIT << class / 4; }

/* The least class whose blocks have room for a head and n bytes. */
static word class_of(word n)
{
    word last = (n + UNIT - 1) / UNIT; /* units, but for the head's */
    if (last < 4) return 0;
    int shift = 61 - __builtin_clzl(last); /* leaves three bits of it, the first of them 1 */
    return 4 * shift + (last >> shift) - 3;
}

void *malloc(word n)
{
    if (n >= 1ul << 32) return 0;
    word class = class_of(n), size = size_of(class), room = __builtin_wasm_memory_size(0) * PAGE - (word)taken_to;
    head *block = freed[class];
    if (block) {
        freed[class] = block->next;
    } else {
        if (size > room && !host_grow((size - room + PAGE - 1) / PAGE)) return 0;
        block = (head *)taken_to;
        taken_to += size;
    }
    block->class = class;
    return block + 1;
}

void free(void *it)
{
    head *block = (head *)it - 1;
    block->next = freed[block->class];
    freed[block->class] = block;
}

void *realloc(void *it, word n)
{
    word room = size_of(((head *)it)[-1].class) - sizeof(head);
    if (n <= room) return it;
    byte *block = malloc(n);
    if (block) {
        __builtin_memcpy(block, it, room);
        free(it);
    }
    return block;
}

/* What the compiler calls in place of long copies, and what its builtins ask for where a stack is guarded. */
void *memcpy(void *to, const void *from, word n) { return __builtin_memcpy(to, from, n); }
void *memmove(void *to, const void *from, word n) { return __builtin_memmove(to, from, n); }
void *memset(void *to, int value, word n) { return __builtin_memset(to, value, n); }
int memcmp(const byte *a, const byte *b, word n)
{
    for (; n; n--, a++, b++)
        if (*a != *b) return *a - *b;
    return 0;
}
int bcmp(const byte *a, const byte *b, word n) { return memcmp(a, b, n); }
word __stack_chk_guard;
_Noreturn void __stack_chk_fail(void) { __builtin_trap(); }

#endif
