/* The text of a refusal by its number, beside otq.h. */
#ifndef OTQ_TEXT_H
#define OTQ_TEXT_H

#include "otq.h"

/* A line without an end of line, never null; a number that no call returns has a text too. */
static inline const char *otq_refusal_text(uint32_t refusal)
{
    switch (refusal) {
    case OTQ_NONE:
        return "nothing is refused";
    case OTQ_PROCESSES:
        return "the number of processes is not 2, 4 or 8";
    case OTQ_OPERATIONS:
        return "the most operations of a process are not 1 to 500";
    case OTQ_TABLE_SHORT:
        return "the work table is too short";
    case OTQ_RECORDS_TORN:
        return "the record bytes are not a multiple of 8";
    case OTQ_ILL_FORMED:
        return "a record is ill-formed";
    case OTQ_BEGIN_WHILE_BUSY:
        return "a process begins an operation while it is inside another";
    case OTQ_STEP_WHILE_IDLE:
        return "a process steps while it is inside no operation";
    case OTQ_BEGUN_ALL:
        return "a process begins more operations than it may";
    case OTQ_ANSWERS_FULL:
        return "an operation ends with fewer than 16 answer bytes left";
    case OTQ_OUTPUT_SHORT:
        return "the order list is longer than the output";
    case OTQ_LOG_TORN:
        return "the log bytes are not a multiple of 16";
    case OTQ_STEP_AMONG_BEGINS:
        return "a step record stands among begins";
    default:
        return "no refusal has this number";
    }
}

#endif
