/* Translates a bank change, a program change and a note up, and back down, and asks which key is down. */
#include "quernbrae.h"

#include <stdio.h>

int main(void) {
    const uint32_t words[] = {0x20B00001, 0x20B02002, 0x20C00500, 0x20903C41};
    quernbrae_record table[QUERNBRAE_RECORDS];
    uint32_t up[8], down[8];

    for (size_t i = 0; i < QUERNBRAE_RECORDS; i++) table[i] = quernbrae_empty();

    quernbrae_done u = quernbrae_run_up(words, 4, table, QUERNBRAE_RECORDS, up, 8);
    printf("up: answer %u, read %zu, wrote %zu:", (unsigned)u.answer, u.read, u.written);
    for (size_t i = 0; i < u.written; i++) printf(" %08X", (unsigned)up[i]);

    quernbrae_done d = quernbrae_run_down(up, u.written, down, 8);
    printf("\ndown: answer %u, read %zu, wrote %zu:", (unsigned)d.answer, d.read, d.written);
    for (size_t i = 0; i < d.written; i++) printf(" %08X", (unsigned)down[i]);

    quernbrae_keys k = quernbrae_keys_down(table, QUERNBRAE_RECORDS, 0, 0);
    printf("\nkeys: answer %u, %u down, the lowest %u\n", (unsigned)k.answer, (unsigned)k.down, (unsigned)k.lowest);
    return 0;
}
