/* Checks the table whose numbers are the program's arguments, and prints whether it passes, or the refusal, then the gap, and how many pairs of columns were
 * counted; document 02, K5 and K8.
 *
 *     gcc -std=c11 -Wall -Wextra -Iinclude examples/c/check.c crates/exported/out/libexported.a -o target/check_c
 *     target/check_c 1 4 2 2 2 0 0 0 0 1 1 1 1
 */
#include <inttypes.h>
#include <stdio.h>

#include "arguments.h"

int main(int argc, char **argv)
{
    int64_t gap;
    size_t pairs;
    size_t length = read_arguments(argc, argv);
    if (yurbantze_check_table(list, length, answer, &gap, &pairs) == YURBANTZE_FILLED)
        printf("passes\n");
    else
        print_refusal();
    printf("gap %" PRId64 "\n", gap);
    printf("pairs %zu\n", pairs);
    return 0;
}
