/* Jenkins' hash of 1996 as it is commonly written in C: what `run` compares with. It hashes the same
 * names as program.rt.in, and prints the same sum. */
#include <stdint.h>
#include <stdio.h>
#include <stdlib.h>

#define WORD(k) ((k)[0] + ((uint32_t)(k)[1] << 8) + ((uint32_t)(k)[2] << 16) + ((uint32_t)(k)[3] << 24))
#define MIX(a, b, c)                  \
    do {                              \
        a -= b; a -= c; a ^= c >> 13; \
        b -= c; b -= a; b ^= a << 8;  \
        c -= a; c -= b; c ^= b >> 13; \
        a -= b; a -= c; a ^= c >> 12; \
        b -= c; b -= a; b ^= a << 16; \
        c -= a; c -= b; c ^= b >> 5;  \
        a -= b; a -= c; a ^= c >> 3;  \
        b -= c; b -= a; b ^= a << 10; \
        c -= a; c -= b; c ^= b >> 15; \
    } while (0)

static uint32_t rjenkins(const unsigned char *k, uint32_t length)
{
    uint32_t a = 0x9e3779b9, b = a, c = 0, left = length;
    for (; left >= 12; k += 12, left -= 12) {
        a += WORD(k);
        b += WORD(k + 4);
        c += WORD(k + 8);
        MIX(a, b, c);
    }
    c += length;
    switch (left) {
    case 11: c += (uint32_t)k[10] << 24; /* fall through */
    case 10: c += (uint32_t)k[9] << 16;  /* fall through */
    case 9: c += (uint32_t)k[8] << 8;    /* fall through */
    case 8: b += (uint32_t)k[7] << 24;   /* fall through */
    case 7: b += (uint32_t)k[6] << 16;   /* fall through */
    case 6: b += (uint32_t)k[5] << 8;    /* fall through */
    case 5: b += k[4];                   /* fall through */
    case 4: a += (uint32_t)k[3] << 24;   /* fall through */
    case 3: a += (uint32_t)k[2] << 16;   /* fall through */
    case 2: a += (uint32_t)k[1] << 8;    /* fall through */
    case 1: a += k[0];
    }
    MIX(a, b, c);
    return c;
}

int main(int argc, char **argv)
{
    static unsigned char bytes[320];
    uint32_t sum = 0;
    if (argc != 3)
        return 1;
    uint32_t length = atoi(argv[1]);
    unsigned long count = atol(argv[2]);
    for (unsigned i = 0; i < sizeof bytes; i++)
        bytes[i] = i * 7 % 251;
    for (unsigned long i = 0; i < count; i++)
        sum += rjenkins(bytes + sum % 64, length);
    printf("%08x\n", sum);
    return 0;
}
