/* Breaks the header's rules on purpose, to show that valgrind sees it: a length is told that is one byte
 * longer than the block. With the word `read` the circuit is too short, with `write` the output. */
#include <stdlib.h>
#include <string.h>
#include <thaksipho.h>

static const uint8_t circuit[] = {0x01, 1, 0x10, 0, 0x11, 0, 0};

/* After the last record the reader looks at one byte more. */
static uint64_t read_too_far(void)
{
    uint8_t *block = malloc(sizeof circuit);
    memcpy(block, circuit, sizeof circuit);
    uint64_t word = thaksipho_read(block, sizeof circuit + 1);
    free(block);
    return word;
}

/* The output fills all the room that is told. */
static uint64_t write_too_far(void)
{
    uint8_t *block = malloc(sizeof circuit);
    uint64_t word = thaksipho_compile(circuit, sizeof circuit, NULL, 0, block, sizeof circuit + 1);
    free(block);
    return word;
}

int main(int count, char **words)
{
    int writes = count == 2 && strcmp(words[1], "write") == 0;
    return (writes ? write_too_far() : read_too_far()) == 0;
}
