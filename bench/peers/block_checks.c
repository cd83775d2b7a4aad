/* The checks of a sheet's blocks as a plain loop: the sum of (i + 1) times byte i over the 510 bytes in front of the check,
 * modulo 65,521. Compiled under one name by each compiler. */
#include <stddef.h>
#include <stdint.h>

enum { BLOCK = 512, CHECK = 510, MODULUS = 65521 };

size_t FIRST_BAD_CHECK(const uint8_t *sheet, size_t blocks);

/* The first block whose stored check is not its check, or the number of blocks. */
size_t FIRST_BAD_CHECK(const uint8_t *sheet, size_t blocks)
{
    for (size_t at = 0; at < blocks; at++) {
        const uint8_t *block = sheet + BLOCK * at;
        uint32_t sum = 0;
        for (uint32_t i = 0; i < CHECK; i++)
            sum += (i + 1) * block[i];
        uint32_t stored = block[CHECK] | (uint32_t)block[CHECK + 1] << 8;
        if (sum % MODULUS != stored)
            return at;
    }
    return blocks;
}
