/*
 * Numbers that look random and are the same for the same seed on every machine, so that a seed names a site.
 */
#include "converge.h"

/* A number below a bound. The state goes up in steps of an odd number; stirring its bits makes seeds that follow one
 * another give unlike numbers. */
uint32_t random_below(uint64_t *random, uint32_t bound)
{
    *random += 0x9E3779B97F4A7C15u;
    uint64_t word = *random;
    word = (word ^ word >> 30) * 0xBF58476D1CE4E5B9u;
    word = (word ^ word >> 27) * 0x94D049BB133111EBu;
    return (uint32_t)((word >> 32) * bound >> 32);
}
