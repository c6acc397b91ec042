/* Products and shifts of numbers of 128 bits, which clang calls where 64 bits are too few. Not proved.
 * (A compiler's own library has them; the kit has none for WebAssembly.) */
typedef unsigned long long u64;
typedef unsigned __int128 u128;

/* The number of these two halves. */
static u128 joined(u64 high, u64 low) { return ((u128)high << 64) | low; }

/* The product of two numbers of 64 bits: of their halves, as by hand. No sum below is past 64 bits. */
static u128 product(u64 a, u64 b) {
    u64 half = 0xffffffff, low = (a & half) * (b & half);
    u64 middle = (a >> 32) * (b & half) + (low >> 32), other = (a & half) * (b >> 32) + (middle & half);
    u64 high = (a >> 32) * (b >> 32) + (middle >> 32) + (other >> 32);
    return joined(high, (other << 32) | (low & half));
}

/* (What both high halves make lies past 128 bits.) */
u128 __multi3(u128 a, u128 b) {
    u64 high = (u64)a * (u64)(b >> 64) + (u64)(a >> 64) * (u64)b;
    return product((u64)a, (u64)b) + joined(high, 0);
}

/* The number shifted to the left by 0 to 127 bits. */
u128 __ashlti3(u128 a, int bits) {
    u64 low = (u64)a, high = (u64)(a >> 64);
    if (bits == 0) return a;
    if (bits >= 64) return joined(low << (bits - 64), 0);
    return joined((high << bits) | (low >> (64 - bits)), low << bits);
}

/* The number shifted to the right by 0 to 127 bits. */
u128 __lshrti3(u128 a, int bits) {
    u64 low = (u64)a, high = (u64)(a >> 64);
    if (bits == 0) return a;
    if (bits >= 64) return joined(0, high >> (bits - 64));
    return joined(high >> bits, (low >> bits) | (high << (64 - bits)));
}
