/* What a tile server asks of the names workspace: the key of a text, and the cells that its string takes.
 * Both functions are in libtiles.a, keep no state and may be called at any time. docs/TILES.md says how to build and link. */
#ifndef TILES_H
#define TILES_H

#include <stddef.h>
#include <stdint.h>

#ifdef __cplusplus
extern "C" {
#endif

/* The key of len bytes: it starts at 0, and each byte b in turn makes it (31 * key + b) % 65521. The key of no bytes is 0.
 * bytes points at len readable bytes, and is not null even where len is 0. */
uint32_t text_key(const uint8_t *bytes, size_t len);

/* The cells of a string of len characters with per_cell characters to a cell, or 0 where len is not 1 to 1,024 or
 * per_cell is not 1 to 16. The layout byte8 has 8 characters to a cell, sixbit has 10. */
uint32_t string_cells(uint32_t len, uint32_t per_cell);

#ifdef __cplusplus
}
#endif

#endif
