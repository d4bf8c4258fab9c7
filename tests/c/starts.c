/* A free start through host/mcx11.h: the layout of a timer, then what each call gives and what start holds behind it. Where nothing is
   written, it holds 77. Valid as C and as C++. */
#include "mcx11.h"

#include <stdio.h>

/* In memory that can't be written. */
static const mcx11_cycle_t four[] = {{0, 4}, {1, 4}};
static const mcx11_cycle_t checks[] = {{0, 6}, {2, 10}, {3, 10}};
static const mcx11_cycle_t late[] = {{4294967295, 3}};
static const mcx11_cycle_t nine[] = {{0, 9}, {1, 9}, {2, 9}, {3, 9}, {4, 9}, {5, 9}, {6, 9}, {7, 9}, {8, 9}};
static const mcx11_cycle_t doubled[] = {{0, 2}, {1, 4}, {3, 8}, {7, 16}, {15, 32}, {31, 64}, {63, 128}, {127, 256}};
static const mcx11_cycle_t longest[] = {{0, 32768}, {65537, 32768}, {0, 32769}, {0, 0}};

static const char *word(uint8_t given)
{
    return given == MCX11_NO_START ? "no start" : mcx11_number_name(given);
}

static void ask(const char *whose, const mcx11_cycle_t *timers, size_t count, uint32_t period)
{
    uint32_t start = 77;
    const uint8_t given = mcx11_free_start(timers, count, period, &start);

    printf("every %u beside %u of %s: %s, %u\n", (unsigned)period, (unsigned)count, whose, word(given), (unsigned)start);
}

static void print_layout(void)
{
    printf("%u bytes: %u, %u\n", (unsigned)sizeof(mcx11_cycle_t), (unsigned)offsetof(mcx11_cycle_t, start),
           (unsigned)offsetof(mcx11_cycle_t, period));
}

int main(void)
{
    uint32_t period;

    print_layout();
    for (period = 0; period <= 3; period++)
        ask("none", NULL, 0, period);
    ask("none", NULL, 0, MCX11_LONGEST_CYCLE);
    ask("none", NULL, 0, MCX11_LONGEST_CYCLE + 1);
    ask("none", NULL, 0, (uint32_t)-1);
    for (period = 1; period <= 6; period++)
        ask("four", four, 1, period);
    ask("four", four, 2, 6);
    ask("four", four, 2, 4);
    ask("checks", checks, 2, 4);
    ask("checks", checks, 3, 4);
    ask("checks", checks, 3, 30);
    ask("checks", checks + 1, 2, 5);
    ask("late", late, 1, 3);
    ask("late", late, 1, 32766);
    ask("nine", nine, MCX11_MOST_CYCLES, 9);
    ask("nine", nine, MCX11_MOST_CYCLES, 8);
    ask("nine", nine, MCX11_MOST_CYCLES + 1, 9);
    ask("nine", nine, (size_t)-1, 9);
    ask("nine", nine + 1, MCX11_MOST_CYCLES, 18);
    ask("doubled", doubled, 8, 256);
    ask("doubled", doubled, 8, MCX11_LONGEST_CYCLE);
    ask("doubled", doubled, 8, 128);
    ask("longest", longest, 2, MCX11_LONGEST_CYCLE);
    ask("longest", longest, 3, 5);
    ask("longest", longest + 3, 1, 5);
    return 0;
}
