/* The delivery desk through dictionary.h: process 0 is licensed, puts terms 1500 and 20 and between them
   30, which is no entry; process 1 takes all three. The terms are printed with their count, then what the
   desk says if process 1 is licensed instead. From the repository's root, after `.ci/archive desk`:

       gcc -std=c99 -Iinclude examples/dictionary/deliver.c target/staticlib/libdesk.a -o target/deliver
       target/deliver */
#include "dictionary.h"

#include <inttypes.h>
#include <stdio.h>

enum { P = 2, L = 3, STEPS = 17, OPERATIONS = 6, RECORDS = OPERATIONS * (1 + STEPS) };

static uint8_t records[RECORDS * DESK_STEP_BYTES];
static uint32_t table[DESK_TABLE_WORDS(P, L)];
static uint8_t output[DESK_MOST_OUTPUT_BYTES(L)];

/* A begin, of kind 1 for a put and 2 for a take, and the steps of a whole operation. The other bytes of
   the records are zero from the start. */
static uint8_t *operation(uint8_t *record, uint8_t process, uint8_t kind, uint32_t value)
{
    record[0] = process;
    record[1] = kind;
    for (int i = 0; i < 4; i++) {
        record[4 + i] = value >> 8 * i & 255;
    }
    record += DESK_STEP_BYTES;
    for (int i = 0; i < STEPS; i++) {
        *record = process;
        record += DESK_STEP_BYTES;
    }
    return record;
}

static uint32_t term(const uint8_t *bytes)
{
    uint32_t all = 0;
    for (int i = DESK_TERM_BYTES; i > 0; i--) {
        all = all << 8 | bytes[i - 1];
    }
    return all;
}

static void deliver(uint32_t licensed)
{
    DeskDelivery delivery = desk_deliver(P, L, licensed, records, sizeof records, table,
                                         DESK_TABLE_WORDS(P, L), output, sizeof output);
    if (delivery.refusal != DESK_NONE) {
        printf("refused with %" PRIu32 "\n", delivery.refusal);
        return;
    }
    for (uint64_t i = 0; i < delivery.count; i++) {
        printf("term %" PRIu32 "\n", term(output + i * DESK_TERM_BYTES));
    }
    printf("%" PRIu64 " terms\n", delivery.count);
}

int main(void)
{
    uint8_t *record = records;
    record = operation(record, 0, 1, DESK_FIRST_ENTRY + 1500);
    record = operation(record, 0, 1, 30);
    record = operation(record, 0, 1, DESK_FIRST_ENTRY + 20);
    for (int i = 0; i < 3; i++) {
        record = operation(record, 1, 2, 0);
    }
    deliver(0);
    deliver(1);
    return 0;
}
