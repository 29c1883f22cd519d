/* What the compiler calls for products of 128 bits, which WebAssembly has no instruction for; other systems have it of their own. */
typedef unsigned long long u64;
struct wide {
    u64 low, high;
};

#define HALF 0xFFFFFFFFull

void __multi3(struct wide *out, u64 a, u64 a_high, u64 b, u64 b_high);
void __multi3(struct wide *out, u64 a, u64 a_high, u64 b, u64 b_high) {
    u64 low = (a & HALF) * (b & HALF), one = (a >> 32) * (b & HALF), other = (a & HALF) * (b >> 32), high = (a >> 32) * (b >> 32);
    u64 middle = (low >> 32) + (one & HALF) + (other & HALF);
    out->low = middle << 32 | (low & HALF);
    out->high = high + (one >> 32) + (other >> 32) + (middle >> 32) + a_high * b + a * b_high;
}
