/* Two hosts share one table: host 1 has group 0, host 2 has group 1, and then group 0 changes hands. */
#include "quernbrae.h"

#include <stdio.h>

static quernbrae_record table[QUERNBRAE_RECORDS];
static uint8_t owners[16] = {1, 2};

/* A run up for a host, over its own words into its own output, and what came of it. */
static void plays(uint8_t host, const uint32_t *words, size_t n) {
    uint32_t out[8];
    quernbrae_done d = quernbrae_host_run_up(host, owners, 16, words, n, table, QUERNBRAE_RECORDS, out, 8);
    printf("host %u: answer %u, read %zu, wrote %zu:", (unsigned)host, (unsigned)d.answer, d.read, d.written);
    for (size_t i = 0; i < d.written; i++) printf(" %08X", (unsigned)out[i]);
    printf("\n");
}

/* What a host is told of the keys of group 0, channel 0. */
static void asks(uint8_t host) {
    quernbrae_keys k = quernbrae_host_keys_down(host, owners, 16, table, QUERNBRAE_RECORDS, 0, 0);
    printf("host %u asks: answer %u, %u down\n", (unsigned)host, (unsigned)k.answer, (unsigned)k.down);
}

int main(void) {
    const uint32_t bank_and_note[] = {0x20B00001, 0x20B02002, 0x20903C41};
    const uint32_t program[] = {0x20C00500}, own_and_foreign[] = {0x21904041, 0x20803C00};

    for (size_t i = 0; i < QUERNBRAE_RECORDS; i++) table[i] = quernbrae_empty();

    plays(1, bank_and_note, 3);   /* a bank that waits for a program change, and a key that goes down */
    plays(2, own_and_foreign, 2); /* a note of group 1, and a note off in group 0, which is not its group */
    asks(1);
    asks(2);
    plays(1, program, 1); /* completed by the bank of host 1, as if host 2 were not there */

    unsigned given = (unsigned)quernbrae_give_group(owners, 16, table, QUERNBRAE_RECORDS, 0, 2);
    printf("group 0 to host 2: answer %u\n", given);
    asks(1);
    asks(2);
    return 0;
}
