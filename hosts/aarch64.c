/* What the program calls and glibc doesn't have, for Linux on aarch64: memory, the arguments, errno.
 *
 * For x86-64 the toolchain has these functions compiled; for aarch64 it has only the contracts that the proofs rest on
 * (libc/src/heap.rt and os/src/c.rt of its library). All else that the program calls, as read and write, is glibc's.
 *
 * No proof covers this file. It is trusted as the C library is: it is short, and tests/machines compares the program that it is
 * linked into with the program for x86-64, run by run.
 */

#include <errno.h>
#include <stddef.h>
#include <stdlib.h>
#include <string.h>
#include <sys/types.h>

/* What an allocation gives: 1 and a block, or 0 and an address that nobody reads or writes. */
struct tried {
    size_t ok;
    void *block;
};

static char nothing;

static struct tried tried(void *block) {
    return block != NULL ? (struct tried){1, block} : (struct tried){0, &nothing};
}

/* A new block. `align` divides 16, and malloc aligns each block so. A block of no bytes has an address of its own, too. */
struct tried rattle_alloc(size_t size, size_t align) {
    return tried(malloc(size != 0 ? size : align));
}

/* The block with another size; its first `kept` bytes stay, and realloc keeps as many or more. Else it stays as it was. */
struct tried rattle_realloc(void *block, size_t kept, size_t size, size_t align) {
    (void)kept;
    return tried(realloc(block, size != 0 ? size : align));
}

void rattle_dealloc(void *block) {
    free(block);
}

int rattle_errno(void) {
    return errno;
}

void rattle_set_errno(int error) {
    errno = error;
}

static size_t count;
static char **words;

/* glibc calls it before main, with main's arguments. */
__attribute__((constructor)) static void keep(int main_count, char **main_words) {
    count = (size_t)main_count;
    words = main_words;
}

size_t rattle_arg_count(void) {
    return count;
}

/* Puts an argument at the start of `room`, which has `size` bytes, and returns its length; -1 where there is none, and -2 where
 * it is longer, and its beginning fills the room. */
ssize_t rattle_arg(size_t index, char *room, size_t size) {
    if (index >= count || words[index] == NULL) {
        return -1;
    }
    size_t length = strlen(words[index]);
    memcpy(room, words[index], length < size ? length : size);
    return length <= size ? (ssize_t)length : -2;
}
