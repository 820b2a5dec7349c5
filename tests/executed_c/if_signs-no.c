/* Each of these tests fails: numbers have 64 bits in them, and no sign where one of the two that meet has none. */
#if !(18446744073709551615u > 0) || !(0xFFFFFFFFFFFFFFFF > 0) || !(01777777777777777777777 > 0)
#define WRONG
#elif 0u - 1 < 0 || !(-1 > 0UL) || !(-1 > 0llu) || -1 > 0 || 0xFFFFFFFF - 0x100000000 > 0
#define WRONG
#elif -1 / 2u != 9223372036854775807 || -7 / 2 != -3 || -7 % 2 != -1 || -7 % 2u != 1
#define WRONG
#elif ~0u >> 63 != 1 || -1 >> 63 != -1 || -1 >> 1u > 0 || 1u << 63 < 0
#define WRONG
#elif (0 ? 1u : -1) < 0 || (1 ? -1 : 0u) < 0 || (0u ? 1 : -1) > 0
#define WRONG
#elif (1u == 1u) - 2 > 0 || (1u < 0u) - 1 > 0 || !1u - 1 > 0 || (1u && 1u) - 2 > 0 || (0u || 0u) - 1 > 0
#define WRONG
#elif defined WRONG - 1 > 0 || NOTHING - 1 > 0 || '\377' > 0 || '\377' + 0u < 256
#define WRONG
#endif
int x;
int main(void)
{
    #pragma omp parallel
    #pragma omp single
    {
        #pragma omp task
        x = 1;
#ifdef WRONG
        #pragma omp task
        x = 2;
#endif
    }
    return 0;
}
