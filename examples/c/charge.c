/* Plans the order whose numbers are the program's arguments after the word `for`, and prints what its sheet costs, or the refusal; document 02, K7. The
 * arguments before that word are the price list: the pence for a run, the pence for a changed level in each column, and the discount in percent.
 *
 *     gcc -std=c11 -Wall -Wextra -Iinclude examples/c/charge.c crates/exported/out/libexported.a -o target/charge_c
 *     target/charge_c 4500 1250 300 300 75 999 15 for 0 1 1 103
 */
#include <inttypes.h>
#include <stdio.h>
#include <string.h>

#include "order.h"

/* Two numbers beside the price of each column, and no sheet has more than 128 columns. */
static uint32_t price_list[128 + 2];

/* How many arguments there are before the word `for`; all, if it is not among them. */
static size_t length_of_price_list(int argc, char **argv)
{
    int place = 1;
    while (place < argc && strcmp(argv[place], "for") != 0)
        place++;
    return (size_t)(place - 1);
}

static void read_price_list(size_t length, char **words)
{
    for (size_t i = 0; i < length; i++)
        price_list[i] = (uint32_t)number_of(words[i], UINT32_MAX);
}

static void print_charge(size_t length)
{
    uint64_t charge;
    size_t refusal = yurbantze_charge(table, sizeof table, levels, sizeof levels, answer[1], answer[2], price_list[0], price_list + 1, length - 2,
                                      price_list[length - 1], &charge);
    if (refusal == YURBANTZE_FILLED)
        printf("%" PRIu64 "\n", charge);
    else
        printf("refused %zu 0 0 0 0 0 0\n", refusal);
}

int main(int argc, char **argv)
{
    size_t length = length_of_price_list(argc, argv);
    int word = (int)length + 1;
    if (word >= argc || length < 2 || length > sizeof price_list / sizeof price_list[0]) {
        fprintf(stderr, "the arguments are RUN COLUMN.. DISCOUNT for NUMBER.., with up to 128 columns\n");
        return 2;
    }
    read_price_list(length, argv + 1);
    /* The word stands before the order as a program's name does before its arguments. */
    if (plan_arguments(argc - word, argv + word) == YURBANTZE_FILLED)
        print_charge(length);
    else
        print_refusal();
    return 0;
}
