/* The script that a count and a seed give, done by the malloc of the C library: generated COUNT SEED. It prints the last line of the
   summary, in which it has what a heap without end has. docs/formats.md tells how scripts are drawn. */
#include <stdint.h>
#include <stdio.h>
#include <stdlib.h>

#define NAMES 256

static uint64_t state, increment;

static uint32_t draw(void)
{
    uint64_t old = state;
    state = old * 6364136223846793005u + increment;
    uint32_t mixed = (uint32_t)(((old >> 18) ^ old) >> 27);
    uint32_t turn = (uint32_t)(old >> 59);
    return mixed >> turn | mixed << (-turn & 31);
}

static void seed_with(uint64_t seed)
{
    increment = 54 << 1 | 1;
    state = 0;
    draw();
    state += seed;
    draw();
}

static size_t size_of(uint32_t b)
{
    uint32_t q = b / 16;
    switch (b % 16) {
    case 12: case 13: return 1 + q % 16384;
    case 14: return 1 + q % 131072;
    case 15: return 131073 + q % 389120;
    default: return 1 + q % 512;
    }
}

int main(int argc, char **argv)
{
    static struct { uint64_t *block; size_t size; } names[NAMES];
    if (argc != 3)
        return 2;
    uint32_t count = (uint32_t)strtoul(argv[1], NULL, 10);
    seed_with(strtoull(argv[2], NULL, 10));
    for (uint32_t k = 0; k < count; k++) {
        uint32_t a = draw(), b = draw(), name = a % NAMES, choice = a / 256 % 4;
        if (names[name].block == NULL) {
            names[name].size = size_of(b);
            names[name].block = malloc(names[name].size);
        } else if (choice < 2) {
            free(names[name].block);
            names[name].block = NULL;
        } else if (choice == 2) {
            names[name].size = size_of(b);
            names[name].block = realloc(names[name].block, names[name].size);
        } else {
            *(volatile uint64_t *)names[name].block = b;
        }
    }
    uint64_t blocks = 0, bytes = 0;
    for (int name = 0; name < NAMES; name++)
        if (names[name].block != NULL) {
            blocks++;
            bytes += names[name].size;
        }
    printf("blocks %llu bytes %llu\n", (unsigned long long)blocks, (unsigned long long)bytes);
    return 0;
}
