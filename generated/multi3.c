/* The product of two numbers of 128 bits, of which the last 128 bits are kept. LLVM's code for WebAssembly calls it, and the kit's
 * linker has no compiler-rt. scripts/generate links it into noddychest-simd.wasm; js/tests holds it against the compiler's own. */
typedef unsigned long long half;

/* Its parts, the low one first, as that code takes a result. */
typedef struct {
    half low, high;
} whole;

whole __multi3(half a, half a_high, half b, half b_high) {
    half a0 = a & 0xffffffff, a1 = a >> 32, b0 = b & 0xffffffff, b1 = b >> 32;
    half low = a0 * b0, cross = a1 * b0, other = a0 * b1;
    half middle = (low >> 32) + (cross & 0xffffffff) + (other & 0xffffffff);
    whole product = {(low & 0xffffffff) | middle << 32, a1 * b1 + (cross >> 32) + (other >> 32) + (middle >> 32) + a * b_high + a_high * b};
    return product;
}
