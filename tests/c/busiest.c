/* The busiest stretch through host/mcx11.h: the record's layout, then what each call gives and what sum and place hold behind it. Where
   nothing is written, they hold 77 and 88. Valid as C and as C++. */
#include "mcx11.h"

#include <stdio.h>

/* In memory that can't be written. */
static const mcx11_record_t few[] = {{0, 1, 2}, {1, 2, 5}, {1, 0, 1}, {7, 1, 4}, {7, 1, 3}, {4294967295, 126, 0}};

static mcx11_record_t many[MCX11_MOST_RECORDS + 1];

static void ask(const char *whose, const mcx11_record_t *records, size_t count, size_t w)
{
    uint32_t sum = 77;
    size_t place = 88;
    const uint8_t number = mcx11_busiest(records, count, w, &sum, &place);

    printf("%u of %u %s: %s, %u at %u\n", (unsigned)w, (unsigned)count, whose, mcx11_number_name(number), (unsigned)sum,
           (unsigned)place);
}

static void print_layout(void)
{
    printf("%u bytes: %u, %u, %u\n", (unsigned)sizeof(mcx11_record_t), (unsigned)offsetof(mcx11_record_t, tocks),
           (unsigned)offsetof(mcx11_record_t, running), (unsigned)offsetof(mcx11_record_t, reissues));
}

int main(void)
{
    size_t w, i;

    for (i = 0; i <= MCX11_MOST_RECORDS; i++)
        many[i].reissues = 65535;
    print_layout();
    for (w = 0; w <= 7; w++)
        ask("few", few, 6, w);
    ask("few", few + 2, 4, 2);
    ask("few", few, 6, (size_t)-1);
    ask("none", NULL, 0, 0);
    ask("none", NULL, 0, 1);
    ask("many", many, MCX11_MOST_RECORDS, MCX11_MOST_RECORDS);
    ask("many", many, MCX11_MOST_RECORDS, 1);
    ask("many", many, MCX11_MOST_RECORDS + 1, 1);
    return 0;
}
