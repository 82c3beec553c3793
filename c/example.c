/* Prints the key, the bin of 64 and the cells of some labels, and what string_cells answers at the edges of its limits. */
#include <stdio.h>
#include <string.h>

#include "tiles.h"

static void label(const char *text)
{
    uint32_t len = (uint32_t)strlen(text);
    uint32_t key = text_key((const uint8_t *)text, len);
    printf("%-14s key %5u bin %2u byte8 %u sixbit %u\n", text, key, key % 64, string_cells(len, 8), string_cells(len, 10));
}

static void edge(uint32_t len, uint32_t per_cell)
{
    printf("%4u characters, %2u to a cell: %u cells\n", len, per_cell, string_cells(len, per_cell));
}

int main(void)
{
    label("AB");
    label("ALM");
    label("FURKAPASS");
    label("PIZ BERNINA");
    label("PASS DAL FUORN");
    printf("no bytes: key %u\n", text_key((const uint8_t *)"", 0));
    edge(0, 8);
    edge(1, 8);
    edge(8, 8);
    edge(9, 8);
    edge(10, 10);
    edge(11, 10);
    edge(1024, 1);
    edge(1024, 16);
    edge(1025, 8);
    edge(5, 0);
    edge(5, 17);
    return 0;
}
