/* The worked example through otq.h: what its two begins foretell, then its answers as the printing
   program prints them, the record that wrote each root block, the root order (kind, process, serial, root
   block), and the check of the log that it just got. From the repository's root, after
   `.ci/archive queue`:

       gcc -std=c99 -Iinclude examples/c/worked.c target/staticlib/libqueue.a -o target/worked
       target/worked */
#include "otq.h"
#include "otq_text.h"

#include <inttypes.h>
#include <stdio.h>

enum { P = 4, L = 24, STEPS = 31, RECORDS = 2 * (1 + STEPS) };

static uint8_t begins[2 * OTQ_STEP_BYTES];
static uint8_t records[RECORDS * OTQ_STEP_BYTES];
static uint32_t table[OTQ_TABLE_WORDS(P, L)];
static uint8_t answers[OTQ_MOST_ANSWER_BYTES(P, L)];
static uint8_t output[OTQ_MOST_OUTPUT_BYTES(P, L)];

/* A number of 16 or 32 bits, low byte first. */
static uint32_t number(const uint8_t *bytes, int count)
{
    uint32_t all = 0;
    while (count-- > 0) {
        all = all << 8 | bytes[count];
    }
    return all;
}

/* A begin. The other bytes of the records are zero from the start; the value is below 256. */
static uint8_t *begin(uint8_t *record, uint8_t process, uint8_t kind, uint8_t value)
{
    record[0] = process;
    record[1] = kind;
    record[4] = value;
    return record + OTQ_STEP_BYTES;
}

/* A begin and the steps of a whole operation. */
static uint8_t *operation(uint8_t *record, uint8_t process, uint8_t kind, uint8_t value)
{
    record = begin(record, process, kind, value);
    for (int i = 0; i < STEPS; i++) {
        *record = process;
        record += OTQ_STEP_BYTES;
    }
    return record;
}

/* Put or take, process, serial, own steps, helps, root block, and for a take the value or none. */
static void print_answer(const uint8_t *answer)
{
    printf("%s %d %" PRIu32 " %d %d %" PRIu32, answer[1] == 1 ? "put" : "take", answer[0],
           number(answer + 8, 4), answer[2], answer[3], number(answer + 12, 4));
    if (answer[1] == 2) {
        printf(" %" PRIu32, number(answer + 4, 4));
    } else if (answer[1] == 3) {
        printf(" none");
    }
    printf("\n");
}

/* The present blocks of the root: its part is the first of the table, and its last place P * L. */
static void print_root(void)
{
    const uint32_t *block = table;
    for (int place = 1; place <= P * L; place++) {
        block += OTQ_BLOCK_WORDS;
        if (block[OTQ_BLOCK_PUTS] != 0 || block[OTQ_BLOCK_TAKES] != 0) {
            printf("root block %d by record %" PRIu32 "\n", place, block[OTQ_BLOCK_NUMBER]);
        }
    }
}

static void print_order(const uint8_t *order)
{
    printf("order %s %d %" PRIu32 " %" PRIu32 "\n", order[1] == 1 ? "put" : "take", order[0],
           number(order + 2, 2), number(order + 4, 4));
}

int main(void)
{
    begin(begin(begins, 0, 1, 7), 1, 2, 0);
    operation(operation(records, 0, 1, 7), 1, 2, 0);

    OtqForecast forecast = otq_forecast(P, L, begins, sizeof begins);
    printf("forecast %" PRIu64 " words, %" PRIu64 " answer bytes, at most %" PRIu64 " records\n",
           forecast.words, forecast.answer_bytes, forecast.records);

    OtqRun run = otq_run(P, L, records, sizeof records, table, OTQ_TABLE_WORDS(P, L), answers,
                         sizeof answers);
    for (uint64_t i = 0; i < run.answers; i++) {
        print_answer(answers + i * OTQ_ANSWER_BYTES);
    }
    printf("end %" PRIu32 " %" PRIu64 "\n", run.refusal, run.taken);
    print_root();

    OtqList list = otq_list_order(P, L, records, sizeof records, table, OTQ_TABLE_WORDS(P, L), output,
                                  sizeof output);
    for (uint64_t at = 0; at < list.length; at += OTQ_ORDER_BYTES) {
        print_order(output + at);
    }

    OtqCheck check = otq_check_log(P, L, records, sizeof records, answers,
                                   run.answers * OTQ_ANSWER_BYTES, table, OTQ_TABLE_WORDS(P, L));
    if (check.verdict == OTQ_SAME) {
        printf("same\n");
    } else if (check.verdict == OTQ_DIFFERS) {
        printf("differs at %" PRIu64 "\n", check.index);
    } else {
        printf("refused with %" PRIu32 ": %s\n", check.refusal, otq_refusal_text(check.refusal));
    }
    return 0;
}
