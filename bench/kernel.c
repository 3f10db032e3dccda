/* How fast a rebuild could be: one pass over the bytes of a lost symbol, whatever its number of sources, by gcc -O3 with SSE2. It tests nothing. */
#include <emmintrin.h>
#include <stddef.h>

/* 16 bytes, wherever they lie. */
static __m128i load(const unsigned char *from)
{
    return _mm_loadu_si128((const __m128i *)from);
}

static void store(unsigned char *to, __m128i bytes)
{
    _mm_storeu_si128((__m128i *)to, bytes);
}

/* Symbol `target` of the stripe becomes the XOR of the sources, none of which is the target: 64 bytes a turn, each summed in a register. */
void kernel_sum(unsigned char *stripe, size_t size, size_t target, const unsigned char *sources, size_t count)
{
    unsigned char *to = stripe + target * size;
    size_t i = 0;
    for (; i + 64 <= size; i += 64) {
        const unsigned char *from = stripe + sources[0] * size + i;
        __m128i a = load(from), b = load(from + 16), c = load(from + 32), d = load(from + 48);
        for (size_t s = 1; s < count; s++) {
            from = stripe + sources[s] * size + i;
            a = _mm_xor_si128(a, load(from));
            b = _mm_xor_si128(b, load(from + 16));
            c = _mm_xor_si128(c, load(from + 32));
            d = _mm_xor_si128(d, load(from + 48));
        }
        store(to + i, a);
        store(to + i + 16, b);
        store(to + i + 32, c);
        store(to + i + 48, d);
    }
    for (; i < size; i++) {
        unsigned char byte = stripe[sources[0] * size + i];
        for (size_t s = 1; s < count; s++)
            byte ^= stripe[sources[s] * size + i];
        to[i] = byte;
    }
}
