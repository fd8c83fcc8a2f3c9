/* Plans the order whose numbers are the program's arguments, and prints all pages of its sheet, or the refusal; document 02, K3.
 *
 *     gcc -std=c11 -Wall -Wextra -Iinclude examples/c/pages.c crates/exported/out/libexported.a -o target/pages_c
 *     target/pages_c 0 1 1 103
 */
#include <stdio.h>

#include "order.h"

static uint8_t page[YURBANTZE_PAGE_LENGTH];

static size_t put_page(size_t number)
{
    return yurbantze_page(table, sizeof table, levels, sizeof levels, answer[1], answer[2], number, page, sizeof page);
}

/* Every sheet that is planned can be handed in, so the first number that is not 0 is that of a page past the last. */
static void print_pages(void)
{
    for (size_t number = 1; put_page(number) == 0; number++)
        fwrite(page, 1, sizeof page, stdout);
}

int main(int argc, char **argv)
{
    if (plan_arguments(argc, argv) == YURBANTZE_FILLED)
        print_pages();
    else
        print_refusal();
    return 0;
}
