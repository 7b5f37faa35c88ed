/* SMAC in C with the same four tables as the library, for comparison of speed. */
#ifndef SMAC_H
#define SMAC_H
#include <stddef.h>
#include <stdint.h>

/* Fills the tables; call once. */
void smac_tables(void);

/* The largest tag of an empty header and a body: mode 1, 2, 3 or 4, the last with 1 to 16 streams. */
void smac_tag(int mode, int streams, const uint8_t key[32], const uint8_t iv[16], const uint8_t *body, size_t len, uint8_t tag[32]);

#endif
