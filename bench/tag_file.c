/* Tags a file through mmap with SMAC-1 in C: a plain computation to hold the program's tag against.
   Usage: tag_file KEYFILE OFFICE SERIAL FILE; build: gcc -O3 bench/tag_file.c bench/smac.c -o tag_file */
#include "smac.h"
#include <fcntl.h>
#include <stdio.h>
#include <stdlib.h>
#include <string.h>
#include <sys/mman.h>
#include <sys/stat.h>

int main(int argc, char **argv) {
    if (argc != 5) return 1;
    uint8_t key[32] = {0}, iv[16] = {0}, tag[32];
    FILE *keys = fopen(argv[1], "r");
    unsigned byte;
    for (int i = 0; keys && i < 32 && fscanf(keys, "%2x", &byte) == 1; i++) key[i] = (uint8_t)byte;
    uint32_t office = (uint32_t)strtoul(argv[2], 0, 10);
    uint64_t serial = strtoull(argv[3], 0, 10);
    memcpy(iv, &office, 4);
    memcpy(iv + 7, &serial, 8);
    int file = open(argv[4], O_RDONLY);
    struct stat s;
    if (file < 0 || fstat(file, &s)) return 1;
    uint8_t *body = s.st_size ? mmap(0, (size_t)s.st_size, PROT_READ, MAP_PRIVATE, file, 0) : key;
    smac_tables();
    smac_tag(1, 0, key, iv, body, (size_t)s.st_size, tag);
    for (int i = 0; i < 16; i++) printf("%02x", tag[i]);
    puts("");
    return 0;
}
