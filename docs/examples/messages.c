/* Whole messages out of packets: an exclusive in two packets, with Flex Data and a note between them. */
#include <inttypes.h>
#include <stdio.h>

#include "quernbrae.h"

int main(void) {
    const uint32_t words[] = {0x30160001, 0x02030405, 0xD0100101, 0x48656C6C, 0x6F000000, 0x00000000,
                              0x20903C40, 0x30320607, 0x00000000, 0x30300000, 0x00000000};
    const size_t count = sizeof words / sizeof words[0];
    uint8_t buffer[QUERNBRAE_CHAINS * 64];
    quernbrae_chain chains[QUERNBRAE_CHAINS];

    for (size_t i = 0; i < QUERNBRAE_CHAINS; i++) chains[i] = quernbrae_chain_closed();
    for (size_t at = 0; at < count;) {
        quernbrae_collected one =
            quernbrae_collect(chains, QUERNBRAE_CHAINS, buffer, sizeof buffer, words + at, count - at);
        printf("answer %" PRIu32 ", read %zu, chain %zu:", one.answer, one.read, one.chain);
        for (size_t i = 0; one.answer == QUERNBRAE_SENT && i < one.length; i++) printf(" %02X", buffer[one.start + i]);
        printf("\n");
        if (one.answer == QUERNBRAE_CUT) break;
        at += one.read;
    }
    return 0;
}
