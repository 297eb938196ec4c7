/* The functions that clang calls on wasm for products and shifts of 128 bits, which other machines find in compiler-rt. */
typedef unsigned long long u64;
typedef unsigned __int128 u128;
typedef union {
    u128 whole;
    struct {
        u64 low, high;
    } half;
} parts;

u128 __multi3(u128 x, u128 y);
u128 __ashlti3(u128 x, int count);
u128 __lshrti3(u128 x, int count);

u128 __multi3(u128 x, u128 y)
{
    parts a = {x}, b = {y}, product;
    u64 a0 = a.half.low & 0xffffffff, a1 = a.half.low >> 32;
    u64 b0 = b.half.low & 0xffffffff, b1 = b.half.low >> 32;
    u64 first = a0 * b0;
    u64 second = a1 * b0 + (first >> 32);
    u64 third = a0 * b1 + (second & 0xffffffff);
    product.half.low = third << 32 | (first & 0xffffffff);
    product.half.high =
        a1 * b1 + (second >> 32) + (third >> 32) + a.half.low * b.half.high + a.half.high * b.half.low;
    return product.whole;
}

/* The count is below 128. */
u128 __ashlti3(u128 x, int count)
{
    parts a = {x}, shifted;
    int by = count & 63;
    if (count & 64) {
        shifted.half.low = 0;
        shifted.half.high = a.half.low << by;
    } else {
        shifted.half.low = a.half.low << by;
        shifted.half.high = a.half.high << by | a.half.low >> 1 >> (63 - by);
    }
    return shifted.whole;
}

u128 __lshrti3(u128 x, int count)
{
    parts a = {x}, shifted;
    int by = count & 63;
    if (count & 64) {
        shifted.half.low = a.half.high >> by;
        shifted.half.high = 0;
    } else {
        shifted.half.low = a.half.low >> by | a.half.high << 1 << (63 - by);
        shifted.half.high = a.half.high >> by;
    }
    return shifted.whole;
}
