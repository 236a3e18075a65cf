// What the module of the office lacks besides page_host.c: shifts and quotients of 128 bits, which clang calls by these names, and a
// clock. No proof covers this file, as none covers libgcc beside the native program. Nothing in it may shift or divide 128 bits.
typedef unsigned long u64;
typedef __int128 s128;
typedef unsigned __int128 u128;
typedef union { u128 all; s128 with_sign; struct { u64 low, high; } half; } Wide;
_Static_assert(sizeof(u64) == 8 && sizeof(Wide) == 16, "the code is for 64 bits");

// The shifts are by 0 to 127.
u128 __ashlti3(u128 x, int n) {
    Wide a = {x}, r;
    if (n == 0) return x;
    r.half.low = n & 64 ? 0 : a.half.low << n;
    r.half.high = n & 64 ? a.half.low << (n & 63) : a.half.high << n | a.half.low >> (64 - n);
    return r.all;
}

static u128 right(u128 x, int n, u64 filling) {
    Wide a = {x}, r;
    if (n == 0) return x;
    u64 filled = (n & 63) ? filling << (64 - (n & 63)) : 0;
    r.half.high = n & 64 ? filling : a.half.high >> n | filled;
    r.half.low = n & 64 ? a.half.high >> (n & 63) | filled : a.half.low >> n | a.half.high << (64 - n);
    return r.all;
}

static int is_below_zero(s128 x) {
    Wide a = {.with_sign = x};
    return a.half.high >> 63;
}

u128 __lshrti3(u128 x, int n) { return right(x, n, 0); }

s128 __ashrti3(s128 x, int n) {
    Wide r = {right((Wide){.with_sign = x}.all, n, is_below_zero(x) ? ~0UL : 0)};
    return r.with_sign;
}

// Quotient and remainder, bit by bit from the highest.
static u128 quotient(u128 x, u128 y, u128 *rest) {
    Wide a = {x}, b = {y}, q = {0}, r = {0};
    if (!a.half.high && !b.half.high) {
        q.half.low = a.half.low / b.half.low;
        r.half.low = a.half.low % b.half.low;
        *rest = r.all;
        return q.all;
    }
    for (int i = 127; i >= 0; i--) {
        u64 bit = (i & 64 ? a.half.high : a.half.low) >> (i & 63) & 1;
        r.half.high = r.half.high << 1 | r.half.low >> 63;
        r.half.low = r.half.low << 1 | bit;
        if (r.half.high > b.half.high || (r.half.high == b.half.high && r.half.low >= b.half.low)) {
            u64 borrowed = r.half.low < b.half.low;
            r.half.low -= b.half.low;
            r.half.high -= b.half.high + borrowed;
            if (i & 64) q.half.high |= 1UL << (i & 63);
            else q.half.low |= 1UL << i;
        }
    }
    *rest = r.all;
    return q.all;
}

static u128 negated(u128 x) {
    Wide a = {x};
    a.half.low = ~a.half.low + 1;
    a.half.high = ~a.half.high + (a.half.low == 0);
    return a.all;
}

static u128 size_of(s128 x) {
    u128 all = (Wide){.with_sign = x}.all;
    return is_below_zero(x) ? negated(all) : all;
}

static s128 with_sign(u128 x, int below_zero) { return (Wide){below_zero ? negated(x) : x}.with_sign; }

u128 __udivti3(u128 x, u128 y) {
    u128 rest;
    return quotient(x, y, &rest);
}

u128 __umodti3(u128 x, u128 y) {
    u128 rest;
    quotient(x, y, &rest);
    return rest;
}

s128 __divti3(s128 x, s128 y) {
    u128 rest;
    return with_sign(quotient(size_of(x), size_of(y), &rest), is_below_zero(x) != is_below_zero(y));
}

s128 __modti3(s128 x, s128 y) {
    u128 rest;
    quotient(size_of(x), size_of(y), &rest);
    return with_sign(rest, is_below_zero(x));
}

// There is no clock: asking for the time fails. No statement of the office asks.
int clock_gettime(int which, void *at) {
    (void)which;
    (void)at;
    return -1;
}

int rattle_errno(void) { return 22; }
