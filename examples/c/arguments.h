/* What the example programs share: a list whose numbers are the program's arguments, and the numbers of an answer. */
#ifndef ARGUMENTS_H
#define ARGUMENTS_H

#include <stdio.h>
#include <stdlib.h>

#include "yurbantze.h"

static uint16_t list[32768];
static size_t answer[YURBANTZE_ANSWER_LENGTH];

/* The number that an argument is. The program ends if it is none, or a larger one than `most`. */
static unsigned long number_of(const char *argument, unsigned long most)
{
    char *end;
    unsigned long number = strtoul(argument, &end, 10);
    if (end == argument || *end != '\0' || number > most) {
        fprintf(stderr, "no number up to %lu: %s\n", most, argument);
        exit(2);
    }
    return number;
}

/* Puts the arguments into the list, and returns how many there are. */
static size_t read_arguments(int argc, char **argv)
{
    size_t length = (size_t)(argc - 1);
    if (length > sizeof list / sizeof list[0]) {
        fprintf(stderr, "more than 32768 numbers\n");
        exit(2);
    }
    for (size_t i = 0; i < length; i++)
        list[i] = (uint16_t)number_of(argv[i + 1], UINT16_MAX);
    return length;
}

static void print_refusal(void)
{
    printf("refused");
    for (size_t i = 0; i < YURBANTZE_ANSWER_LENGTH; i++)
        printf(" %zu", answer[i]);
    printf("\n");
}

#endif
