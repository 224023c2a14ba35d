/* Quernbrae: translates Universal MIDI Packets from MIDI 1.0 up to MIDI 2.0, and back down.
 *
 * Link crates/quernbrae/out/libquernbrae.a. The rules stand in docs/RULES.md; a comment here names its sections.
 *
 * Every function answers whatever it is given: any words, any table, any output. No content has to be checked first.
 * What is lent is a pointer and a number of elements, which the pointer must have; with 0 elements it may be null. A
 * part that a call may write to may not overlap any other part lent to that call. The words are only read.
 */
#ifndef QUERNBRAE_H
#define QUERNBRAE_H

#include <stddef.h>
#include <stdint.h>

#ifdef __cplusplus
extern "C" {
#endif

/* All answers that functions of this header give (docs/RULES.md, 3.1). At each function stand those that it gives, in
 * the order in which their cases are asked; a function gives no others. */
enum {
    QUERNBRAE_SENT = 0,           /* sent; a run has finished */
    QUERNBRAE_TAKEN_IN = 1,       /* kept in the record at most, so nothing is sent */
    QUERNBRAE_NO_FORM = 2,        /* cannot be said in MIDI 1.0 (8) */
    QUERNBRAE_CUT = 3,            /* the packet lacks words, or there is none (1.3) */
    QUERNBRAE_RESERVED = 4,       /* reserved message type (2.1) */
    QUERNBRAE_WRONG_PROTOCOL = 5, /* MIDI 2.0 voice going up, MIDI 1.0 voice going down (2.1) */
    QUERNBRAE_BAD_STATUS = 6,     /* 2.2 */
    QUERNBRAE_BAD_DATA = 7,       /* 2.3; the report tells the place */
    QUERNBRAE_NOT_SOUND = 8,      /* going up, and of a mark: the record of the channel breaks 5.2; from a cable: what
                                   * is remembered of it breaks 12.1 */
    QUERNBRAE_NO_ROOM = 9,        /* the output cannot hold what the packet sends (3.4) */
    QUERNBRAE_NO_TABLE = 10,      /* the table has more or fewer than 256 records; of the collector: the list has more
                                   * or fewer than 32 chains (14.3) */
    QUERNBRAE_DROPPED = 11,       /* from a cable: a byte or a message is dropped (12.2) */
    QUERNBRAE_CUT_OFF = 12,       /* from a cable: an exclusive is cut off, and its closing packet sent (12.2) */
    QUERNBRAE_NOT_YOURS = 13,     /* of a host: the group is not its own (2.6) */
    QUERNBRAE_NO_COUNTERPART = 14, /* of a maker identity: it has no such form in the other kind (13) */
    QUERNBRAE_OUT_OF_TURN = 15,    /* of a chain: the packet does not go on where it stands; an open one is dropped
                                    * (14.3) */
    QUERNBRAE_TOO_MANY_PACKETS = 16, /* of a chain: the 33rd packet of Flex Data; it is dropped (14.3) */
    QUERNBRAE_BAD_ADDRESS = 17,      /* Flex Data for address 2 or 3; the chain stays (14.3) */
    QUERNBRAE_TOO_LONG = 18,         /* of a chain: the packet does not fit in its part; it is dropped (14.3) */
    QUERNBRAE_NOT_FOR_ROOM = 23,  /* in the beginners' room: good, but not on its list (2.5) */
    QUERNBRAE_OUT_OF_RANGE = 24,  /* no such group, channel or host: of a question (5.8), a mark (5.9), a giving (5.10),
                                   * a replay (11.1) and a cable (12.3, 12.4) */
    QUERNBRAE_NOT_FOR_CABLE = 25  /* to a cable: a packet of another type or of another group (12.4) */
};

/* The address kinds of a record (docs/RULES.md, 5.1). */
enum { QUERNBRAE_NONE = 0, QUERNBRAE_REGISTERED = 1, QUERNBRAE_ASSIGNABLE = 2 };

/* Stands for a number that is missing. All other numbers of a sound record are at most 127. */
enum { QUERNBRAE_MISSING = 255 };

/* The length of a table: a record for each of 16 channels in each of 16 groups (docs/RULES.md, 1.4). */
enum { QUERNBRAE_RECORDS = 256 };

/* What is remembered of one channel between packets (docs/RULES.md, 5.1). */
typedef struct {
    uint64_t keys_low;  /* key k of 0 to 63 is bit k (5.7) */
    uint64_t keys_high; /* key k of 64 to 127 is bit k - 64 */
    uint16_t kind;
    uint8_t bank_high;
    uint8_t bank_low;
    uint8_t address_bank;
    uint8_t address_index;
    uint8_t data_high;
    uint8_t coarse; /* 1 on a channel that is marked coarse (5.9), else 0 */
} quernbrae_record;

/* What a call or a run reports. */
typedef struct {
    uint32_t answer;
    uint32_t place; /* after answer 7 that of the first bad field, from 1 (2.4); else 0 */
    size_t read;    /* words read */
    size_t written; /* words written, from the output's start */
} quernbrae_done;

/* What is answered of the keys of a channel (docs/RULES.md, 5.8). */
typedef struct {
    uint32_t answer; /* 10, 24, 13 of a host, or 0 */
    uint32_t down;   /* how many keys are down */
    uint32_t lowest; /* the lowest of them, or QUERNBRAE_NO_KEY */
} quernbrae_keys;

/* Stands for the lowest key where none is down. */
enum { QUERNBRAE_NO_KEY = 255 };

/* A maker identity of 16 bits. */
typedef struct {
    uint32_t answer; /* 14 or 0 */
    uint32_t number; /* 0 where there is none */
} quernbrae_identity;

/* A maker identity of bytes. */
typedef struct {
    uint32_t answer;  /* 14 or 0 */
    uint32_t count;   /* 1 or 3, or 0 where there is none */
    uint8_t bytes[4]; /* the first count of them, and zeros behind these */
} quernbrae_maker;

/* The number of chains: exclusives of groups 0 to 15, then Flex Data of groups 0 to 15 (14.1). It also stands for the
 * chain of a packet that belongs to none. */
enum { QUERNBRAE_CHAINS = 32, QUERNBRAE_NO_CHAIN = 32 };

/* What is known of a chain beside its bytes (14.1). */
typedef struct {
    size_t length;    /* bytes in its part */
    uint32_t shared;  /* Flex Data: address, channel, bank and status, the lowest 22 bits of its packets' first words */
    uint32_t packets; /* 0 while none is open; an open exclusive has 1 */
} quernbrae_chain;

/* What the collector reports of a packet (14.3), or of a run (14.6). */
typedef struct {
    uint32_t answer; /* 10, 3, 4, 6, 7, 17, 15, 16, 18, 1 or 0 */
    uint32_t place;  /* after answer 7 that of the first bad field, from 1 (2.4); else 0 */
    size_t read;     /* words read */
    size_t chain;    /* the packet's chain, or QUERNBRAE_NO_CHAIN */
    size_t start;    /* where the part of that chain begins in the buffer */
    size_t length;   /* the bytes that the chain has after the packet: after answer 0 the whole message */
} quernbrae_collected;

/* The empty record: no key down, kind none, all five numbers missing, no mark. Fill a table with it before the first
 * packet (docs/RULES.md, 5.1). */
quernbrae_record quernbrae_empty(void);

/* One call up, for the packet at the start of words (docs/RULES.md, 6). Gives 10, 3, 4, 5, 6, 7, 8, 9, 1 or 0.
 * After 1 and 0 the record of the packet's channel may have changed, and the words written are the only other change;
 * after all others table and output are as they were (3.3). */
quernbrae_done quernbrae_up(const uint32_t *words, size_t words_len,
                            quernbrae_record *table, size_t table_len,
                            uint32_t *out, size_t out_len);

/* A run up: a call for each packet, until the words end (docs/RULES.md, 4). Gives 10, 3, 8, 9 or 0. What was done
 * before it stopped stands. The run can be taken up again at words + read. */
quernbrae_done quernbrae_run_up(const uint32_t *words, size_t words_len,
                                quernbrae_record *table, size_t table_len,
                                uint32_t *out, size_t out_len);

/* One call up in the beginners' room, where notes, bend, six controllers and MT 0 pass and all else that is good is
 * answered 23 (docs/RULES.md, 2.5). Gives 10, 3, 4, 5, 6, 7, 23, 8, 9, 1 or 0. What passes is treated as by
 * quernbrae_up, and 23 changes nothing. */
quernbrae_done quernbrae_beginners_up(const uint32_t *words, size_t words_len,
                                      quernbrae_record *table, size_t table_len,
                                      uint32_t *out, size_t out_len);

/* A run up in the beginners' room. It goes on after 23. Gives 10, 3, 8, 9 or 0. */
quernbrae_done quernbrae_beginners_run_up(const uint32_t *words, size_t words_len,
                                          quernbrae_record *table, size_t table_len,
                                          uint32_t *out, size_t out_len);

/* A lesson run: a run up over all the words from a fresh table of its own (docs/RULES.md, 4.2).
 * Channel c of group g is marked coarse there where bit c of coarse[g] is 1. Groups past the end of coarse have no
 * marks, and only its first 16 numbers count. Gives 3, 9 or 0. The table is gone afterwards, so a lesson that stopped
 * cannot be taken up again. */
quernbrae_done quernbrae_lesson(const uint32_t *words, size_t words_len,
                                const uint16_t *coarse, size_t coarse_len,
                                uint32_t *out, size_t out_len);

/* One call down, for the packet at the start of words (docs/RULES.md, 8). There is no table. Gives 3, 4, 5, 6, 7, 2, 9
 * or 0. After 0 the words written are the only change; after all others the output is as it was. */
quernbrae_done quernbrae_down(const uint32_t *words, size_t words_len,
                              uint32_t *out, size_t out_len);

/* A run down: a call for each packet, until the words end (docs/RULES.md, 4). Gives 3, 9 or 0.
 * Going down or up, an output twice as long as the words never lacks room (9.3). */
quernbrae_done quernbrae_run_down(const uint32_t *words, size_t words_len,
                                  uint32_t *out, size_t out_len);

/* One channel's packets alone, for a replay: the MIDI 1.0 voice packets of a group and channel, unchanged and in order,
 * with those among them that a call up would refuse (docs/RULES.md, 11). All else is passed over. Gives 24, where
 * nothing is read, and then 3, 9 or 0 as a run does. An output as long as the words never lacks room. From the same
 * table of 256 sound records, and with room for all, a run up over what is handed back sends what the run over all
 * words sends for the channel, and leaves its record as that does. */
quernbrae_done quernbrae_only(const uint32_t *words, size_t words_len,
                              uint8_t group, uint8_t channel,
                              uint32_t *out, size_t out_len);

/* How many keys are down on a channel of a group, and the lowest (docs/RULES.md, 5.8). Gives 10, 24 or 0. The table is
 * only read. */
quernbrae_keys quernbrae_keys_down(const quernbrae_record *table, size_t table_len,
                                   uint8_t group, uint8_t channel);

/* Marks a channel of a group coarse, or takes the mark off where coarse is 0 (docs/RULES.md, 5.9). On a marked channel
 * controller 6 sends by itself, and 38 never does. Gives 10, 24, 8, which change nothing, or 0. After 0 the
 * record's data_high is missing, even where the mark was there already, and the rest of the record stays. */
uint32_t quernbrae_mark_coarse(quernbrae_record *table, size_t table_len,
                               uint8_t group, uint8_t channel, uint8_t coarse);

/* Two hosts on one box (docs/RULES.md, 2.6). Number g of owners is the host that has group g: 1 or 2; any other number,
 * and a group past the end of the list, is nobody's. A host other than 1 and 2 owns nothing. What follows is as without
 * a host, but a packet that has a group, and one that is not the host's, is answered 13, after 5 and before 6, and a
 * run goes on after it. Nothing that a host is answered, sent or left depends on what the other one does.
 * One call up gives 10, 3, 4, 5, 13, 6, 7, 8, 9, 1 or 0. */
quernbrae_done quernbrae_host_up(uint8_t host, const uint8_t *owners, size_t owners_len,
                                 const uint32_t *words, size_t words_len,
                                 quernbrae_record *table, size_t table_len,
                                 uint32_t *out, size_t out_len);

/* Gives 10, 3, 8, 9 or 0. */
quernbrae_done quernbrae_host_run_up(uint8_t host, const uint8_t *owners, size_t owners_len,
                                     const uint32_t *words, size_t words_len,
                                     quernbrae_record *table, size_t table_len,
                                     uint32_t *out, size_t out_len);

/* Gives 3, 4, 5, 13, 6, 7, 2, 9 or 0. */
quernbrae_done quernbrae_host_down(uint8_t host, const uint8_t *owners, size_t owners_len,
                                   const uint32_t *words, size_t words_len,
                                   uint32_t *out, size_t out_len);

/* Gives 3, 9 or 0. */
quernbrae_done quernbrae_host_run_down(uint8_t host, const uint8_t *owners, size_t owners_len,
                                       const uint32_t *words, size_t words_len,
                                       uint32_t *out, size_t out_len);

/* The question of a host: gives 10 and 24 as always, then 13 for a group that is not its own, or 0. */
quernbrae_keys quernbrae_host_keys_down(uint8_t host, const uint8_t *owners, size_t owners_len,
                                        const quernbrae_record *table, size_t table_len,
                                        uint8_t group, uint8_t channel);

/* A mark of a host: gives 10 and 24 as always, then 13, then 8, which all change nothing, or 0. */
uint32_t quernbrae_host_mark_coarse(uint8_t host, const uint8_t *owners, size_t owners_len,
                                    quernbrae_record *table, size_t table_len,
                                    uint8_t group, uint8_t channel, uint8_t coarse);

/* Gives a group to host 1 or 2, or to nobody by 0 (docs/RULES.md, 5.10). Where the group changes hands its 16 records
 * are empty afterwards. Gives 10, or 24 for a group above 15 or past the owner list, or a host above 2, which change
 * nothing, or 0. Call it between runs. */
uint32_t quernbrae_give_group(uint8_t *owners, size_t owners_len,
                              quernbrae_record *table, size_t table_len,
                              uint8_t group, uint8_t host);

/* What is remembered of a MIDI 1.0 cable between two bytes (docs/RULES.md, 12.1). */
typedef struct {
    uint8_t running; /* the voice status that data bytes alone may repeat, or 0 */
    uint8_t status;  /* that of the message that is open, or 0 */
    uint8_t begun;   /* 1 in an exclusive of which a packet was sent */
    uint8_t count;   /* how many bytes of what is open are held */
    uint8_t held[6]; /* these bytes; 0 behind them */
} quernbrae_cable;

/* What an import reports: the bytes read, the words written from the output's start, and the cable after it. */
typedef struct {
    uint32_t answer;
    size_t read;
    size_t written;
    quernbrae_cable after;
} quernbrae_imported;

/* A cable on which nothing was heard yet. */
quernbrae_cable quernbrae_cable_idle(void);

/* One byte of a cable, whose packets are of a group (docs/RULES.md, 12.3). Gives 24, 8 for a cable that is not sound, 3
 * for no byte, 9, 12, 11, 1 or 0. With 12 the byte is not read, nor with 11 where it drops a message: the next call
 * takes it. 24, 8, 3 and 9 change nothing. */
quernbrae_imported quernbrae_import(quernbrae_cable cable, uint8_t group,
                                    const uint8_t *bytes, size_t bytes_len,
                                    uint32_t *out, size_t out_len);

/* Byte after byte, until all are read (docs/RULES.md, 12.3). Gives 24, 8, 9 where a packet has no room, or 0. A message
 * that is open at the end stays in the cable. An output of two words for each byte, and two more, never lacks room. */
quernbrae_imported quernbrae_run_import(quernbrae_cable cable, uint8_t group,
                                        const uint8_t *bytes, size_t bytes_len,
                                        uint32_t *out, size_t out_len);

/* One packet of a group as bytes for a cable (docs/RULES.md, 12.4). Gives 24, 3, 4, 25, 6, 7 with the place, 9, 1 for a
 * packet that has no bytes, or 0. `read` counts words, and `written` bytes. */
quernbrae_done quernbrae_export(uint8_t group,
                                const uint32_t *words, size_t words_len,
                                uint8_t *out, size_t out_len);

/* Packet after packet, until the words end (docs/RULES.md, 12.4). Gives 24, 3, 9 or 0. */
quernbrae_done quernbrae_run_export(uint8_t group,
                                    const uint32_t *words, size_t words_len,
                                    uint8_t *out, size_t out_len);

/* A chain before its first packet: none is open. Fill a list of QUERNBRAE_CHAINS with it before the first call. */
quernbrae_chain quernbrae_chain_closed(void);

/* Collects whole messages (docs/RULES.md, 14): the packet at the start of the words goes into its chain, whose bytes
 * stand in its own part of the buffer, one of 32 of equal length. Answer 0 says that a message is whole: its bytes are
 * the length ones from start on, until the next packet of that chain. Gives 10 where the list is not 32 chains, first
 * of all, then 3, 4, 6, 7 with the place, 1 for a packet of another type, 17, 15, 16, 18, 1 or 0. */
quernbrae_collected quernbrae_collect(quernbrae_chain *chains, size_t chains_len,
                                      uint8_t *buffer, size_t buffer_len,
                                      const uint32_t *words, size_t words_len);

/* Call after call over the words, until a message is whole (0), an open chain is dropped (15, 16 or 18) or a packet is
 * cut (3): the report is that of this packet, and `read` counts all words read, those of a cut packet not. Where the
 * words end without, the answer is 1, and no chain is named; 10 first. Repeat it at words + read until it answers 1 or
 * 3, and each message and each drop comes once (14.6). */
quernbrae_collected quernbrae_run_collect(quernbrae_chain *chains, size_t chains_len,
                                          uint8_t *buffer, size_t buffer_len,
                                          const uint32_t *words, size_t words_len);

/* The form of 16 bits of a maker identity, from its old form (docs/RULES.md, 13): one byte of 1 to 127, or 0 and two
 * bytes of at most 127. Any other bytes are answered 14. Gives 14 or 0. */
quernbrae_identity quernbrae_identity_new(const uint8_t *old, size_t old_len);

/* And back: 0, what has bit 15 clear and is above 127, and what has bits 15 and 7 set, is answered 14. What one of the
 * two gives with answer 0, the other turns back into what it was. Gives 14 or 0. */
quernbrae_maker quernbrae_identity_old(uint16_t number);

#ifdef __cplusplus
}
#endif

#endif
