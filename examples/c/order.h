/* What the example programs share that plan an order: the order is the program's arguments, and the buffers are the program's own. */
#ifndef ORDER_H
#define ORDER_H

#include "arguments.h"

static uint8_t table[YURBANTZE_TABLE_LENGTH];
static uint8_t levels[YURBANTZE_LEVELS_LENGTH];
static uint8_t scratch[YURBANTZE_SCRATCH_LENGTH];
static int64_t spare;

static size_t plan_arguments(int argc, char **argv)
{
    size_t length = read_arguments(argc, argv);
    return yurbantze_plan(list, length, table, sizeof table, levels, sizeof levels, scratch, sizeof scratch, answer, &spare);
}

#endif
