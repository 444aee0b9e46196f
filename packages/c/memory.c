/* The memory of the library, by malloc. SPDX-License-Identifier: MIT OR Apache-2.0 */
#include "lagvtsune.h"
#include <stdlib.h>

static lagvtsune_tried answer(uint8_t *block)
{
    static uint8_t unread;
    return (lagvtsune_tried){block != NULL, block != NULL ? block : &unread};
}

/* malloc aligns a block for every type that fits into it, so a block of at least `align` bytes, up to
 * 16, is aligned to `align`. */
static size_t rounded(size_t size, size_t align)
{
    return size < align ? align : size;
}

lagvtsune_tried rattle_alloc(size_t size, size_t align)
{
    return answer(malloc(rounded(size, align)));
}

lagvtsune_tried rattle_realloc(uint8_t *block, size_t kept, size_t size, size_t align)
{
    (void)kept;
    return answer(realloc(block, rounded(size, align)));
}

void rattle_dealloc(uint8_t *block)
{
    free(block);
}
