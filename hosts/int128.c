/* The arithmetic of 128 bits that WebAssembly lacks: clang calls these functions for it, by the names of its own runtime
 * library, which the toolchain doesn't have for WebAssembly.
 *
 * No proof covers this file. tests/machines compares each function with Python's arithmetic.
 */

typedef unsigned long u64;
typedef unsigned __int128 u128;

static u128 of(u64 high, u64 low) {
    union {
        u64 half[2];
        u128 whole;
    } number = {{low, high}};
    return number.whole;
}

static u64 low_of(u128 number) {
    return (u64)number;
}

static u64 high_of(u128 number) {
    union {
        u128 whole;
        u64 half[2];
    } halves = {number};
    return halves.half[1];
}

/* number << count, where 0 <= count < 128 */
u128 __ashlti3(u128 number, int count) {
    u64 high = high_of(number), low = low_of(number);
    if (count == 0) {
        return number;
    }
    if (count >= 64) {
        return of(low << (count - 64), 0);
    }
    return of(high << count | low >> (64 - count), low << count);
}

/* number >> count, where 0 <= count < 128 */
u128 __lshrti3(u128 number, int count) {
    u64 high = high_of(number), low = low_of(number);
    if (count == 0) {
        return number;
    }
    if (count >= 64) {
        return of(0, high >> (count - 64));
    }
    return of(high >> count, high << (64 - count) | low >> count);
}

/* The product of two numbers of 64 bits, from those of their halves. */
static u128 product(u64 a, u64 b) {
    u64 a_low = a & 0xffffffff, a_high = a >> 32, b_low = b & 0xffffffff, b_high = b >> 32;
    u64 lowest = a_low * b_low;
    u64 middle = a_high * b_low + (lowest >> 32);         /* at most (2^32 - 1)^2 + 2^32 - 1, which fits */
    u64 other = a_low * b_high + (middle & 0xffffffff);   /* so does this */
    return of(a_high * b_high + (middle >> 32) + (other >> 32), other << 32 | (lowest & 0xffffffff));
}

/* a * b mod 2^128 */
u128 __multi3(u128 a, u128 b) {
    u128 low = product(low_of(a), low_of(b));
    return of(high_of(low) + low_of(a) * high_of(b) + high_of(a) * low_of(b), low_of(low));
}
