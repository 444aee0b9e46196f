/*
 * A program that gives the library its own memory: it defines the three functions of lagvtsune.h, and
 * links the static library.
 *
 *     cc -o own_memory own_memory.c $(pkg-config --cflags lagvtsune) liblagvtsune.a
 *     ./own_memory          makes a script, and prints the number of blocks
 *     ./own_memory 5        refuses the fifth allocation, so the library runs out of memory
 */
#include <lagvtsune.h>
#include <stdio.h>
#include <stdlib.h>
#include <string.h>

#define BYTES(text) (const uint8_t *)(text), strlen(text)

static const char TREE[] = "{\"name\": \"app\", \"args\": [{\"id\": \"dir\", \"long\": \"dir\"}]}";

static unsigned long allocations, frees, refused;

static lagvtsune_tried counted(uint8_t *block)
{
    static uint8_t unread;
    return (lagvtsune_tried){block != NULL, block != NULL ? block : &unread};
}

static bool is_refused(void)
{
    return ++allocations == refused;
}

lagvtsune_tried rattle_alloc(size_t size, size_t align)
{
    return counted(is_refused() ? NULL : malloc(size < align ? align : size));
}

lagvtsune_tried rattle_realloc(uint8_t *block, size_t kept, size_t size, size_t align)
{
    (void)kept;
    if (is_refused())
        return counted(NULL);
    frees++;
    return counted(realloc(block, size < align ? align : size));
}

void rattle_dealloc(uint8_t *block)
{
    frees++;
    free(block);
}

int main(int argc, char **argv)
{
    static uint8_t room[1 << 16];
    uint8_t status = LAGVTSUNE_FAILED;
    refused = argc > 1 ? strtoul(argv[1], NULL, 10) : 0;
    size_t length = lagvtsune_script(BYTES("fish"), BYTES("app"), BYTES(TREE), room, sizeof room, &status);
    if (length <= sizeof room)
        fwrite(room, 1, length, status == LAGVTSUNE_MADE ? stdout : stderr);
    unsigned long failed = refused != 0 && refused <= allocations;
    fprintf(stderr, "%lu allocations, %lu blocks are left\n", allocations, allocations - failed - frees);
    return status;
}
