/* What the program calls of an operating system, for WebAssembly with a 64-bit memory: streams, arguments, memory, errno.
 *
 * An instance of the module is one run of the program. Who makes the instance gives it the functions of `host`, as
 * hosts/wasm.mjs does, and calls `start` once, which returns the exit status. Memory is the module's own, and ends with the
 * instance.
 *
 * No proof covers this file. It is trusted as the C library is: it is short, and tests/machines compares the module with the
 * program for x86-64, run by run.
 */

typedef unsigned char byte;
typedef unsigned long size;
typedef long ssize;

#define EXPORT(name) __attribute__((export_name(#name)))
#define IMPORT(name) __attribute__((import_module("host"), import_name(#name)))

/* Streams and arguments. The host's `read` gives 0 at the end of the input; its `write` takes all. */

IMPORT(read) ssize host_read(int stream, void *room, size length);
IMPORT(write) ssize host_write(int stream, const void *bytes, size length);
IMPORT(arg_count) size host_arg_count(void);
IMPORT(arg) ssize host_arg(size index, void *room, size length);

ssize read(int stream, void *room, size length) {
    return host_read(stream, room, length);
}

ssize write(int stream, const void *bytes, size length) {
    return host_write(stream, bytes, length);
}

/* glibc's other name of it, which the standard library calls too. */
ssize __write(int stream, const void *bytes, size length) {
    return host_write(stream, bytes, length);
}

size rattle_arg_count(void) {
    return host_arg_count();
}

ssize rattle_arg(size index, void *room, size length) {
    return host_arg(index, room, length);
}

/* There are no signals: to ignore one is done. */
ssize __sysv_signal(int signal, ssize handler) {
    (void)signal, (void)handler;
    return 0;
}

static int error;

int rattle_errno(void) {
    return error;
}

void rattle_set_errno(int other) {
    error = other;
}

/* Memory. A block has 2^class bytes, and its class stands in the 16 bytes before it. A block that was freed waits for the next
 * one of its class; where none waits, a new one is cut off at `top`, and the memory grows as far as it has to. */

enum { HEAD = 16, SMALLEST = 4, CLASSES = 64, PAGE = 65536 };

struct head {
    size class;
    struct head *next; /* of those that wait */
};

/* What an allocation gives: 1 and a block, or 0 and an address that nobody reads or writes. */
struct tried {
    size ok;
    void *block;
};

extern byte __heap_base; /* where the program's own data ends: set by the linker */
static byte nothing;
static struct head *waiting[CLASSES];
static size top;
static size most; /* bytes that the memory may have */

static size class_of(size length) {
    return length <= 1ul << SMALLEST ? SMALLEST : 64 - (size)__builtin_clzl(length - 1);
}

static struct head *head_of(void *block) {
    return (struct head *)((byte *)block - HEAD);
}

/* Whether the memory has as many bytes, or can be made to have them. */
static int grow_to(size end) {
    size pages = __builtin_wasm_memory_size(0);
    size wanted = (end + PAGE - 1) / PAGE;
    return wanted <= pages || (wanted * PAGE <= most && __builtin_wasm_memory_grow(0, wanted - pages) != (size)-1);
}

/* A block of so many bytes, fewer than 2^63; none has the address 0. */
static void *take(size length) {
    size class = class_of(length);
    struct head *found = waiting[class];
    if (found) {
        waiting[class] = found->next;
    } else {
        size block = 1ul << class;
        if (block > most || !grow_to(top + HEAD + block)) {
            return 0;
        }
        found = (struct head *)top;
        found->class = class;
        top += HEAD + block;
    }
    return (byte *)found + HEAD;
}

static struct tried tried(void *block) {
    return block ? (struct tried){1, block} : (struct tried){0, &nothing};
}

/* A new block. `align` divides 16, as the address of each block does. */
struct tried rattle_alloc(size length, size align) {
    (void)align;
    return tried(take(length));
}

void rattle_dealloc(void *block) {
    struct head *head = head_of(block);
    head->next = waiting[head->class];
    waiting[head->class] = head;
}

/* The block with another size; its first `kept` bytes stay. Where there is no memory it stays as it was. */
struct tried rattle_realloc(void *block, size kept, size length, size align) {
    (void)align;
    if (class_of(length) == head_of(block)->class) {
        return tried(block);
    }
    void *other = take(length);
    if (other) {
        __builtin_memcpy(other, block, kept < length ? kept : length);
        rattle_dealloc(block);
    }
    return tried(other);
}

/* One instruction each: the module is compiled with bulk memory. */

void *memcpy(void *to, const void *from, size length) {
    return __builtin_memcpy(to, from, length);
}

void *memmove(void *to, const void *from, size length) {
    return __builtin_memmove(to, from, length);
}

void *memset(void *to, int value, size length) {
    return __builtin_memset(to, value, length);
}

/* The program's main reads no arguments but through rattle_arg. */
extern int program(int count, char **words) __asm__("main");

/* Runs the program in a memory of so many bytes at most, and returns its exit status. */
EXPORT(start) int start(size bytes) {
    most = bytes;
    top = ((size)&__heap_base + HEAD - 1) / HEAD * HEAD;
    return program(0, 0);
}
