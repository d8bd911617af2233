/* The proved library for C and C++ on Linux, x86-64: a first-in first-out queue shared by several
   processes, played step by step as a list of step records says. `.ci/archive queue` writes the archive
   to link, target/staticlib/libqueue.a. otq_text.h has the text of each refusal.

   Every call takes p, the number of processes (2, 4 or 8), and l, the most operations of one process
   (1 to 500). Any numbers and any contents may be passed: what is turned down is told by a number.

   Buffers. Lengths are in elements: bytes, and words for the table. A pointer is never null, not even
   with length 0; the one to the table is aligned for uint32_t. So an empty buffer is passed as the
   address of any object, for the table of a uint32_t, and the length 0. A buffer that is written
   (table, answers, output) overlaps no other buffer of the call; during the call no other thread
   touches it, and none writes the others. The library keeps no pointer, allocates nothing and
   has no state between calls.

   Records, numbers low byte first, without a header:
   - step record, 8 bytes: process; kind (0 step, 1 begin put, 2 begin take); two zero bytes; value,
     32 bits, 0 unless the kind is 1;
   - answer record, 16 bytes: process; kind (1 put done, 2 value, 3 none); byte 2 the own steps of the
     operation, at most 41, 81 or 121 with p = 2, 4 or 8; byte 3 its helps, at most its steps; then, 32
     bits each, value (0 unless the kind is 2), serial of the operation in its process, from 1, and root
     block;
   - order record, 8 bytes: process; kind (1 put, 2 take); serial, 16 bits; root block, 32 bits.

   The work table holds the blocks of a tree, by node. Node 1 is the root, nodes 2v and 2v + 1 are the
   children of node v, and node p + k is the leaf of process k. A node of height k, a leaf having height
   0, has places 0 to l * 2^k. Its blocks are one unbroken part of the table, OTQ_BLOCK_WORDS words a
   block; the parts stand in node order from word 0, and places rise. The words of a block, in the order
   of enum OtqBlockWord:
   - puts and takes, of the node up to and including this block;
   - super, the parent's head as an advance read it, 0 while it is not set and always in the root;
   - end left and end right, the places of the last blocks of the children in it; in a leaf a put's value
     (0 for a take), and 0;
   - size, in the root by the rule of sizes, which in the last block gives the queue's length, else 0;
   - number, the number in the list, from 1, of the record that wrote it.
   Block 0 is all zero. A later place is absent if its puts and takes are both 0. The subblocks of a block
   in a child are those at the places after the end in the block before it, up to the end in the block.

   A node's head is the place of its next block; an advance raises the head past it once it is there, in
   step V3. A help is such a move in the advance of a child, begun by R3 or R5: the operation raises the
   child's head past a block that it found there. A V3 that finds the head raised already is no help, and
   neither is the advance of the own leaf or of the refreshed node (docs/RULES.md, 5.3). */
#ifndef OTQ_H
#define OTQ_H

#include <stddef.h>
#include <stdint.h>

#ifdef __cplusplus
extern "C" {
#endif

/* Why a call or a record is turned down: the first test that fails, in this order. A call 1, 2, 3, 4, of
   otq_check_log then 11; record by record a begin 5, 8, 6 and a step 5, 7, of otq_run then 9; of
   otq_list_order at the end 10. So a begin inside the last of l operations is 8. otq_forecast 1, 2, 4,
   then record by record 5, 12, 8. */
enum OtqRefusal {
    OTQ_NONE = 0,              /* nothing is turned down */
    OTQ_PROCESSES = 1,         /* p is not 2, 4 or 8 */
    OTQ_OPERATIONS = 2,        /* l is not 1 to 500 */
    OTQ_TABLE_SHORT = 3,       /* the table has fewer than OTQ_TABLE_WORDS(p, l) words */
    OTQ_RECORDS_TORN = 4,      /* the record bytes are not a multiple of 8 */
    OTQ_ILL_FORMED = 5,        /* a process not below p, a kind above 2, or a byte that must be zero */
    OTQ_BEGIN_WHILE_BUSY = 6,  /* a begin while the process is not idle */
    OTQ_STEP_WHILE_IDLE = 7,   /* a step while the process is idle */
    OTQ_BEGUN_ALL = 8,         /* a begin by a process that has begun l operations */
    OTQ_ANSWERS_FULL = 9,      /* an operation ends with fewer than 16 answer bytes left */
    OTQ_OUTPUT_SHORT = 10,     /* the order list is longer than the output */
    OTQ_LOG_TORN = 11,         /* the log bytes are not a multiple of 16 */
    OTQ_STEP_AMONG_BEGINS = 12 /* a step record among begins: kind 0 in otq_forecast */
};

/* What the check of a log says. */
enum OtqVerdict {
    OTQ_SAME = 0,    /* the log is the one that the records give */
    OTQ_DIFFERS = 1, /* it is another */
    OTQ_REFUSED = 2  /* the call or a record was turned down, and nothing was compared */
};

#define OTQ_STEP_BYTES 8
#define OTQ_ANSWER_BYTES 16
#define OTQ_ORDER_BYTES 8
#define OTQ_BLOCK_WORDS 7

/* Where the words of a block stand in it. */
enum OtqBlockWord {
    OTQ_BLOCK_PUTS = 0,
    OTQ_BLOCK_TAKES = 1,
    OTQ_BLOCK_SUPER = 2,
    OTQ_BLOCK_END_LEFT = 3,
    OTQ_BLOCK_END_RIGHT = 4,
    OTQ_BLOCK_SIZE = 5,
    OTQ_BLOCK_NUMBER = 6
};

/* Used by the macros below: a number as a size_t, and the levels of the tree. */
#ifdef __cplusplus
#define OTQ_SIZE(number) (static_cast<size_t>(number))
#else
#define OTQ_SIZE(number) ((size_t)(number))
#endif
#define OTQ_LEVELS(p) OTQ_SIZE((p) == 2 ? 2 : (p) == 4 ? 3 : 4)

/* Lengths of buffers for a p and an l that are not turned down; constant if p and l are. The table
   must have so many words; so many answer and output bytes are enough for every list. */
#define OTQ_TABLE_WORDS(p, l) \
    (OTQ_BLOCK_WORDS * (OTQ_LEVELS(p) * OTQ_SIZE(p) * OTQ_SIZE(l) + 2 * OTQ_SIZE(p) - 1))
#define OTQ_MOST_ANSWER_BYTES(p, l) (OTQ_ANSWER_BYTES * OTQ_SIZE(p) * OTQ_SIZE(l))
#define OTQ_MOST_OUTPUT_BYTES(p, l) (OTQ_ORDER_BYTES * OTQ_SIZE(p) * OTQ_SIZE(l))

/* Where each node's part of the table starts with l = OTQ_NODE_STARTS_L, as constants for a viewer. Row
   OTQ_NODE_STARTS_ROW(p) is for p processes (2, 4 or 8), and its entry v - 1 is the first word of node v.
   A node that the tree lacks, from 2p on, has 0, which is no start: at word 0 the root starts, node 1. So
   the size in the block at a place of a node is word

       OTQ_NODE_STARTS[OTQ_NODE_STARTS_ROW(p)][node - 1] + OTQ_BLOCK_WORDS * place + OTQ_BLOCK_SIZE

   of the table. The numbers are those of crates/node_starts, where it is proved that each start is that
   of the layout above, and that the parts of a row don't overlap and end within the words needed. */
#define OTQ_NODE_STARTS_L 24
#define OTQ_NODE_STARTS_ROW(p) (OTQ_LEVELS(p) - 2)
#ifdef __GNUC__
__attribute__((unused)) /* Not every program reads the table. */
#endif
static const uint32_t OTQ_NODE_STARTS[3][15] = {
    {0, 343, 518, 0, 0, 0, 0, 0, 0, 0, 0, 0, 0, 0, 0},
    {0, 679, 1022, 1365, 1540, 1715, 1890, 0, 0, 0, 0, 0, 0, 0, 0},
    {0, 1351, 2030, 2709, 3052, 3395, 3738, 4081, 4256, 4431, 4606, 4781, 4956, 5131, 5306}
};

typedef struct OtqRun {
    uint32_t refusal; /* enum OtqRefusal */
    uint64_t taken;   /* records taken */
    uint64_t answers; /* answer records written */
} OtqRun;

typedef struct OtqList {
    uint32_t refusal; /* enum OtqRefusal */
    uint64_t length;  /* bytes of the list, 0 with a refusal */
} OtqList;

typedef struct OtqCheck {
    uint32_t refusal; /* enum OtqRefusal */
    uint32_t verdict; /* enum OtqVerdict */
    uint64_t index;   /* with OTQ_DIFFERS the number, from 0, of the first answer record that is
                         unequal or lacking in one log; else 0 */
} OtqCheck;

typedef struct OtqForecast {
    uint32_t refusal;      /* enum OtqRefusal; with a refusal the others are 0 */
    uint64_t words;        /* words of the table */
    uint64_t answer_bytes; /* bytes of the answers, 16 a begin */
    uint64_t records;      /* the most records that a run takes: 42, 82 or 122 a begin with p = 2, 4 or 8 */
} OtqForecast;

/* Run: plays the records and writes the answers.

   Turned down with 1 to 4, it changes nothing and returns zero counts. Otherwise it clears the words
   needed and plays until a record is turned down with 5 to 9; that record changes nothing and ends
   the run. Answer bytes past the answers and table words past those needed keep their content.

   In the table that it leaves unless turned down with 1 to 4, a block's superblock, the present block
   of its parent's that has it as a subblock, stands at the block's super or one place later. The number
   n of a present block, 1 to `taken`, is that of the record that wrote it: the first n - 1 records leave
   its place absent, the first n leave it present. In each node the numbers rise strictly with the place,
   and a block's number is above those of all its subblocks. */
OtqRun otq_run(uint32_t p, uint32_t l,
               const uint8_t *records, size_t records_bytes,
               uint32_t *table, size_t table_words,
               uint8_t *answers, size_t answers_bytes);

/* List the order: plays the records and writes the order records of the root order.

   Turned down with 1 to 4, it changes nothing; with 5 to 8 or 10 it writes no output. Output bytes past
   the list keep their content. From 5 on, and without a refusal, the table is left as otq_run with
   room for every answer leaves it. The order only grows: if, with the same p and l, records and
   the same records with more after them are both listed without a refusal, the first list is the
   beginning of the second. */
OtqList otq_list_order(uint32_t p, uint32_t l,
                       const uint8_t *records, size_t records_bytes,
                       uint32_t *table, size_t table_words,
                       uint8_t *output, size_t output_bytes);

/* Check a log: plays the records and compares the log with the answers that they give.

   Turned down with 1 to 4 or 11, it changes nothing. With 5 to 8, and without a refusal, the table is
   left as otq_run with room for every answer leaves it. */
OtqCheck otq_check_log(uint32_t p, uint32_t l,
                       const uint8_t *records, size_t records_bytes,
                       const uint8_t *log, size_t log_bytes,
                       uint32_t *table, size_t table_words);

/* Forecast: tells from begin records alone, one for each operation, what a run will need. It plays
   nothing and writes nothing.

   What it tells without a refusal holds of every list whose begins are these in this order, given to
   otq_run with the same p and l, any table and any answer buffer, whether or not a record is turned
   down: at most `records` records are taken, and at most `answer_bytes` bytes of answers written,
   exactly so many if nothing is turned down and all operations finish; and with at least `words`
   table words and `answer_bytes` answer bytes otq_run returns neither 3 nor 9.

   Turned down with 1, 2 or 4, or at a record with 5, 12 or 8, it returns zeros. A step record is 12,
   or 5 if it is ill-formed; 8 is a begin by a process of which l begins stand before it. */
OtqForecast otq_forecast(uint32_t p, uint32_t l,
                         const uint8_t *begins, size_t begins_bytes);

#ifdef __cplusplus
}
#endif

#endif
