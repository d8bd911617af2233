/* A viewer through otq.h: known run M5 is played, and blocks are read straight from the work table, by
   the constants that say where each node starts. The first line is the refusal number and the records
   taken; then come the present blocks of the root, each with the record that wrote it and the length of
   the queue after it, and those of the leaf of process 1, with the value put. From the repository's root,
   after `.ci/archive queue`:

       gcc -std=c99 -Iinclude examples/c/viewer.c target/staticlib/libqueue.a -o target/viewer
       target/viewer */
#include "otq.h"

#include <inttypes.h>
#include <stdio.h>

enum { P = 4, L = OTQ_NODE_STARTS_L, RECORDS = 94, ROOT = 1 };

static uint8_t records[RECORDS * OTQ_STEP_BYTES];
static uint32_t table[OTQ_TABLE_WORDS(P, L)];
static uint8_t answers[OTQ_MOST_ANSWER_BYTES(P, L)];

/* A begin, of kind 1 for a put and 2 for a take. The other bytes of the records are zero from the start;
   the value is below 256. */
static uint8_t *begin(uint8_t *record, uint8_t process, uint8_t kind, uint8_t value)
{
    record[0] = process;
    record[1] = kind;
    record[4] = value;
    return record + OTQ_STEP_BYTES;
}

static uint8_t *steps(uint8_t *record, uint8_t process, int count)
{
    while (count-- > 0) {
        *record = process;
        record += OTQ_STEP_BYTES;
    }
    return record;
}

/* examples/known/M5.txt: two puts come to the root in one block, then a take. */
static void write_records(void)
{
    uint8_t *record = records;
    record = steps(begin(record, 1, 1, 10), 1, 18);
    record = steps(begin(record, 0, 1, 20), 0, 31);
    record = steps(record, 1, 11);
    steps(begin(record, 2, 2, 0), 2, 31);
}

/* The block at a place of a node. */
static const uint32_t *block_at(uint32_t node, uint32_t place)
{
    return table + OTQ_NODE_STARTS[OTQ_NODE_STARTS_ROW(P)][node - 1] + OTQ_BLOCK_WORDS * place;
}

/* The present blocks of a node, each with one of its words. */
static void print_node(const char *name, uint32_t node, uint32_t last_place, const char *word_name,
                       enum OtqBlockWord word)
{
    for (uint32_t place = 1; place <= last_place; place++) {
        const uint32_t *block = block_at(node, place);
        if (block[OTQ_BLOCK_PUTS] != 0 || block[OTQ_BLOCK_TAKES] != 0) {
            printf("%s block %" PRIu32 " by record %" PRIu32 ", %s %" PRIu32 "\n", name, place,
                   block[OTQ_BLOCK_NUMBER], word_name, block[word]);
        }
    }
}

int main(void)
{
    write_records();
    OtqRun run = otq_run(P, L, records, sizeof records, table, OTQ_TABLE_WORDS(P, L), answers,
                         sizeof answers);
    printf("end %" PRIu32 " %" PRIu64 "\n", run.refusal, run.taken);
    print_node("root", ROOT, P * L, "size", OTQ_BLOCK_SIZE);
    print_node("leaf 1", P + 1, L, "value", OTQ_BLOCK_END_LEFT);
    return 0;
}
