/* Plans the order whose numbers are the program's arguments, and prints the runs, or the refusal, as documents 01 and 02 have them printed.
 *
 *     gcc -std=c11 -Wall -Wextra -Iinclude examples/c/plan.c crates/exported/out/libexported.a -o target/plan_c
 *     target/plan_c 0 2 1 101 4 2 1 2 3
 */
#include <inttypes.h>
#include <stdio.h>

#include "order.h"

static void print_row(const uint8_t *row, size_t length)
{
    for (size_t i = 0; i < length; i++)
        printf("%s%u", i == 0 ? "" : " ", (unsigned)row[i]);
    printf("\n");
}

static void print_table(size_t runs, size_t columns)
{
    printf("%zu %zu %" PRId64 "\n", runs, columns, spare);
    print_row(levels, columns);
    for (size_t run = 0; run < runs; run++)
        print_row(table + run * columns, columns);
}

int main(int argc, char **argv)
{
    if (plan_arguments(argc, argv) == YURBANTZE_FILLED)
        print_table(answer[1], answer[2]);
    else
        print_refusal();
    return 0;
}
