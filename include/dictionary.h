/* The legal dictionary for C and C++ on Linux, x86-64: two calls, each proved and a product of its own.

   - The delivery desk, desk_deliver: which terms were delivered. `.ci/archive desk` writes its archive,
     target/staticlib/libdesk.a.
   - The price sheet, price_deliveries: what a number of deliveries costs. `.ci/archive price` writes its
     archive, target/staticlib/libprice.a.

   A program links the archive of each call that it uses. Neither needs another library, and both may be
   linked beside each other and beside that of the queue. Any numbers and any contents may be passed:
   what is turned down is told by a number. The libraries keep no pointer, allocate nothing and have no
   state between calls. */
#ifndef DICTIONARY_H
#define DICTIONARY_H

#include <stddef.h>
#include <stdint.h>

#ifdef __cplusplus
extern "C" {
#endif

/* The delivery desk.

   Several processes share a first-in first-out queue, played step by step as a list of step records
   says. A value of DESK_FIRST_ENTRY or more is a dictionary entry, and what it is above that its term
   number. The licence names one process, which alone may put entries; anyone may take them. The desk
   gives the terms that finished takes received.

   The call takes p, the number of processes (2, 4 or 8), l, the most operations of one process (1 to
   500), and the licensed process, from 0.

   Buffers. Lengths are in elements: bytes, and words for the table. A pointer is never null, not even
   with length 0; the one to the table is aligned for uint32_t. So an empty buffer is passed as the
   address of any object, for the table of a uint32_t, and the length 0. A buffer that is written
   (table, output) overlaps no other buffer of the call; during the call no other thread touches it, and
   none writes the records. Table and output are all that the call writes. It uses at most about
   133,000 bytes of stack.

   Records and terms, numbers low byte first, without a header:
   - step record, 8 bytes: process; kind (0 step, 1 begin put, 2 begin take); two zero bytes; value,
     32 bits, 0 unless the kind is 1;
   - term, 4 bytes: its number.

   Why a call or a record is turned down: the first test that fails, in this order. The call 1, 2, 13, 3,
   4; record by record a begin 5, 8, 6, 14 and a step 5, 7; at the end 10. */
enum DeskRefusal {
    DESK_NONE = 0,             /* nothing is turned down */
    DESK_PROCESSES = 1,        /* p is not 2, 4 or 8 */
    DESK_OPERATIONS = 2,       /* l is not 1 to 500 */
    DESK_TABLE_SHORT = 3,      /* the table has fewer than DESK_TABLE_WORDS(p, l) words */
    DESK_RECORDS_TORN = 4,     /* the record bytes are not a multiple of 8 */
    DESK_ILL_FORMED = 5,       /* a process not below p, a kind above 2, or a byte that must be zero */
    DESK_BEGIN_WHILE_BUSY = 6, /* a begin while the process is not idle */
    DESK_STEP_WHILE_IDLE = 7,  /* a step while the process is idle */
    DESK_BEGUN_ALL = 8,        /* a begin by a process that has begun l operations */
    DESK_OUTPUT_SHORT = 10,    /* the terms are longer than the output */
    DESK_LICENCE = 13,         /* the licensed process is not below p */
    DESK_FOREIGN_ENTRY = 14    /* a begin of a put of an entry by a process that is not the licensed one */
};

#define DESK_FIRST_ENTRY UINT32_C(0x80000000)
#define DESK_STEP_BYTES 8
#define DESK_TERM_BYTES 4

/* Used by the macros below: the words of a block in the table, a number as a size_t, and the levels of
   the tree that the table holds. */
#define DESK_BLOCK_WORDS 7
#ifdef __cplusplus
#define DESK_SIZE(number) (static_cast<size_t>(number))
#else
#define DESK_SIZE(number) ((size_t)(number))
#endif
#define DESK_LEVELS(p) DESK_SIZE((p) == 2 ? 2 : (p) == 4 ? 3 : 4)

/* Lengths of buffers for a p and an l that are not turned down; constant if p and l are. The table must
   have so many words. So many output bytes are enough, since each term is that of a put by the licensed
   process, which begins at most l operations: tested and not proved. With too few the call says 10. */
#define DESK_TABLE_WORDS(p, l) \
    (DESK_BLOCK_WORDS * (DESK_LEVELS(p) * DESK_SIZE(p) * DESK_SIZE(l) + 2 * DESK_SIZE(p) - 1))
#define DESK_MOST_OUTPUT_BYTES(l) (DESK_TERM_BYTES * DESK_SIZE(l))

typedef struct DeskDelivery {
    uint32_t refusal; /* enum DeskRefusal */
    uint64_t count;   /* terms written, 0 with a refusal */
} DeskDelivery;

/* Deliver: plays the records and writes the terms that finished takes received, in the order in which
   the takes took effect, the root order. Of two terms the one whose put is earlier in root order comes
   first: the terms are the values, less DESK_FIRST_ENTRY, of puts whose numbers in root order rise
   strictly. A take that has not finished delivers nothing, nor does a value below DESK_FIRST_ENTRY.

   Turned down with 1, 2, 13, 3 or 4, it changes nothing. Otherwise it clears the words needed and plays
   until a record is turned down with 5 to 8 or 14; that record changes nothing and ends the list. With
   10 all records were played. The table is left as the records taken leave it, which is not for the
   caller to read. A refusal writes no output. Output bytes past the terms and table words past those
   needed keep their content. */
DeskDelivery desk_deliver(uint32_t p, uint32_t l, uint32_t licensed,
                          const uint8_t *records, size_t records_bytes,
                          uint32_t *table, size_t table_words,
                          uint8_t *output, size_t output_bytes);

/* The price sheet.

   Firms pay by deliveries, which count from 1. A sheet is a list of bands, 1 to PRICE_MOST_BANDS records of
   PRICE_BAND_BYTES bytes, without a header: the number of the band's last delivery, then its price in
   cents for a hundred deliveries, both 32 bits, low byte first. A band begins after the end of the one
   before it, so that ends rise strictly; the first may end at 0, and then has no delivery, and ends may be
   above PRICE_MOST_DELIVERIES. A delivery costs the price of the band that it falls in, and beyond the
   last band that of the last, whose own end so changes no price.

   The call writes nothing and uses less than 500 bytes of stack. The pointer to the sheet is never
   null, not even with length 0; it need not be aligned. During the call no other thread writes the sheet.

   Why a count or a sheet is turned down: the first test that fails, in the order of the numbers. All of
   15 is tested before any price, and the sheet is tested for every count, also for 0. */
enum PriceRefusal {
    PRICE_NONE = 0,       /* nothing is turned down */
    PRICE_COUNT = 2,      /* the count is over PRICE_MOST_DELIVERIES */
    PRICE_SHEET_TORN = 4, /* the sheet bytes are not a multiple of 8 */
    PRICE_BANDS = 15,     /* no bands, more than PRICE_MOST_BANDS, or ends that do not rise strictly */
    PRICE_TOO_HIGH = 16   /* a price over PRICE_MOST_CENTS_A_HUNDRED */
};

#define PRICE_BAND_BYTES 8
#define PRICE_MOST_BANDS 8
#define PRICE_MOST_DELIVERIES 4000
#define PRICE_MOST_CENTS_A_HUNDRED 1000000

typedef struct PriceTotal {
    uint32_t refusal;   /* enum PriceRefusal */
    uint32_t cents;     /* whole cents, 0 with a refusal */
    uint32_t remainder; /* the rest in hundredths of a cent, 0 to 99; 0 with a refusal */
} PriceTotal;

/* What the deliveries 1 to count cost by the sheet. Proved: for every input the result is what a definition
   gives, `price_deliveries` in crates/price/specs/Price.antt; and it is exact: without a refusal
   100 * cents + remainder is the sum of each delivery's price, and the remainder is 0 to 99. Nothing is
   rounded, and with the largest numbers that are taken nothing overflows. */
PriceTotal price_deliveries(uint32_t count, const uint8_t *sheet, size_t sheet_bytes);

#ifdef __cplusplus
}
#endif

#endif
