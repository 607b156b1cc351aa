/* Chains of tokens in plain C, for audit-speed and lanes-speed: one chain at a time, or four side by side.

   chains tokens             reads lines of a key's two halves, a starting code, a value and a count, and prints the token of each
   chains one CHAINS STEPS   takes so many steps up so many chains, and prints the sum of the codes that these come to
   chains four CHAINS STEPS  the same, four chains side by side; CHAINS is divided by four */
#include <inttypes.h>
#include <stdio.h>
#include <stdlib.h>
#include <string.h>

/* One chain: the two halves of its key, the lowest byte of each first, and the code that it has come to. */
struct chain {
    uint64_t k0, k1;
    uint32_t code;
};

/* The word behind a message of eight bytes, which says its length. */
static const uint64_t length = (uint64_t)8 << 56;

/* A hash's state is four variables, s0 to s3, where s is the letter of its chain. */
#define TURN(x, by) ((x) << (by) | (x) >> (64 - (by)))
#define START(s, chain)                           \
    uint64_t s##0 = chain.k0 ^ 0x736f6d6570736575; \
    uint64_t s##1 = chain.k1 ^ 0x646f72616e646f6d; \
    uint64_t s##2 = chain.k0 ^ 0x6c7967656e657261; \
    uint64_t s##3 = chain.k1 ^ 0x7465646279746573; \
    uint64_t s##m = message(chain.code)
#define ROUND(s)                  \
    s##0 += s##1;                 \
    s##1 = TURN(s##1, 13) ^ s##0; \
    s##0 = TURN(s##0, 32);        \
    s##2 += s##3;                 \
    s##3 = TURN(s##3, 16) ^ s##2; \
    s##0 += s##3;                 \
    s##3 = TURN(s##3, 21) ^ s##0; \
    s##2 += s##1;                 \
    s##1 = TURN(s##1, 17) ^ s##2; \
    s##2 = TURN(s##2, 32)
#define IN(s) s##3 ^= s##m
#define OUT(s) s##0 ^= s##m
#define LENGTH_IN(s) s##3 ^= length
#define LENGTH_OUT(s) s##0 ^= length
#define END(s) s##2 ^= 0xff
#define FOLD(s) fold(s##0 ^ s##1 ^ s##2 ^ s##3)

/* SipHash-2-4 of eight bytes, where EACH does its word for one chain or for each of four. */
#define HASH(EACH)                                                \
    EACH(IN); EACH(ROUND); EACH(ROUND); EACH(OUT);                \
    EACH(LENGTH_IN); EACH(ROUND); EACH(ROUND); EACH(LENGTH_OUT);  \
    EACH(END); EACH(ROUND); EACH(ROUND); EACH(ROUND); EACH(ROUND)
#define ALONE(word) word(a)
#define BESIDE(word) word(a); word(b); word(c); word(d)

/* The four bytes of a code, the highest first, twice, as the number that they read as, the lowest first. */
static inline uint64_t message(uint32_t code)
{
    uint64_t half = __builtin_bswap32(code);
    return half | half << 32;
}

static inline uint32_t fold(uint64_t hash)
{
    uint32_t bits = ((uint32_t)(hash >> 32) ^ (uint32_t)hash) >> 2;
    return bits > 999999999 ? bits - 73741825 : bits;
}

static inline void step(struct chain *chain)
{
    START(a, (*chain));
    HASH(ALONE);
    chain->code = FOLD(a);
}

static inline void step4(struct chain chains[4])
{
    START(a, chains[0]);
    START(b, chains[1]);
    START(c, chains[2]);
    START(d, chains[3]);
    HASH(BESIDE);
    chains[0].code = FOLD(a);
    chains[1].code = FOLD(b);
    chains[2].code = FOLD(c);
    chains[3].code = FOLD(d);
}

/* The chain of this number: each byte of its key is the number modulo 256, and its code is counted on from 123456789. */
static struct chain nth(uint64_t number)
{
    uint64_t half = number % 256 * 0x0101010101010101;
    struct chain chain = { half, half, (uint32_t)((123456789 + number) % 1000000000) };
    return chain;
}

static uint64_t one_at_a_time(uint64_t chains, uint64_t steps)
{
    uint64_t sum = 0;
    for (uint64_t number = 0; number < chains; number++) {
        struct chain chain = nth(number);
        for (uint64_t n = 0; n < steps; n++)
            step(&chain);
        sum += chain.code;
    }
    return sum;
}

static uint64_t side_by_side(uint64_t chains, uint64_t steps)
{
    uint64_t sum = 0;
    for (uint64_t number = 0; number < chains; number += 4) {
        struct chain four[4] = { nth(number), nth(number + 1), nth(number + 2), nth(number + 3) };
        for (uint64_t n = 0; n < steps; n++)
            step4(four);
        for (int i = 0; i < 4; i++)
            sum += four[i].code;
    }
    return sum;
}

static void print_tokens(void)
{
    struct chain chain;
    uint32_t start, value, count;
    while (scanf("%" SCNu64 " %" SCNu64 " %" SCNu32 " %" SCNu32 " %" SCNu32, &chain.k0, &chain.k1, &start, &value, &count) == 5) {
        uint32_t base = (start % 1000 + value) % 1000;
        chain.code = start - start % 1000 + base;
        while (count--)
            step(&chain);
        printf("%" PRIu32 "\n", chain.code - chain.code % 1000 + base);
    }
}

int main(int argc, char **argv)
{
    if (argc == 2 && strcmp(argv[1], "tokens") == 0) {
        print_tokens();
        return 0;
    }
    if (argc != 4)
        return 1;
    uint64_t chains = strtoull(argv[2], NULL, 10), steps = strtoull(argv[3], NULL, 10);
    if (strcmp(argv[1], "one") == 0)
        printf("%" PRIu64 "\n", one_at_a_time(chains, steps));
    else if (strcmp(argv[1], "four") == 0 && chains % 4 == 0)
        printf("%" PRIu64 "\n", side_by_side(chains, steps));
    else
        return 1;
    return 0;
}
