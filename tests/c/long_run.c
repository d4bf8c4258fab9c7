/* busiest_of_run of docs/HOST.md beside the plain maximum, over runs of more and of fewer frames than a list may have. busy.c is the
   page's; its main has another name here. Exit status 1 at the first difference. Valid as C and as C++. */
#define main main_of_the_page
#include "busy.c"
#undef main

#include <string.h>

#define FRAMES 9000

static mcx11_record_t run[FRAMES];
static unsigned compared, failed;

typedef struct answer_t {
    uint8_t number;
    uint32_t sum;
    size_t place;
} answer_t;

static const answer_t not_written = {MCX11_NUMBER_STRETCH, 77, 88};

static answer_t of_page(size_t frames, size_t w)
{
    answer_t told = not_written;
    told.number = busiest_of_run(run, frames, w, &told.sum, &told.place);
    return told;
}

/* Every stretch, one by one. */
static answer_t plain(size_t frames, size_t w)
{
    answer_t best = not_written;
    size_t place, i;
    if (w == 0 || w > frames || w > MCX11_MOST_RECORDS)
        return best;
    for (place = 0; place + w <= frames; place++) {
        uint32_t sum = 0;
        for (i = 0; i < w; i++)
            sum += run[place + i].reissues;
        if (place == 0 || sum > best.sum) {
            best.number = MCX11_ACCEPTED;
            best.sum = sum;
            best.place = place;
        }
    }
    return best;
}

static void compare(size_t frames, size_t w, answer_t due)
{
    const answer_t told = of_page(frames, w);
    compared++;
    if (told.number == due.number && told.sum == due.sum && told.place == due.place)
        return;
    failed = 1;
    fprintf(stderr, "%u of %u frames: %u, %u at %u, and due %u, %u at %u\n", (unsigned)w, (unsigned)frames, told.number,
            (unsigned)told.sum, (unsigned)told.place, due.number, (unsigned)due.sum, (unsigned)due.place);
}

/* One busy stretch, at every place of the run. */
static void at_every_place(size_t w)
{
    answer_t due = {MCX11_ACCEPTED, (uint32_t)w, 0};
    size_t i;
    memset(run, 0, sizeof run);
    for (i = 0; i < w; i++)
        run[i].reissues = 1;
    for (; due.place + w <= FRAMES && !failed; due.place++) {
        compare(FRAMES, w, due);
        run[due.place].reissues = 0;
        if (due.place + w < FRAMES)
            run[due.place + w].reissues = 1;
    }
}

/* Few different counts, so that many sums are the same. */
static void of_any_length(uint32_t seed)
{
    static const size_t lengths[] = {0, 1, 2, 4095, 4096, 4097, 4098, 8191, 8192, 8193, FRAMES};
    static const size_t widths[] = {0, 1, 2, 3, 40, 2048, 4095, 4096, 4097, FRAMES};
    size_t i, l, w;
    for (i = 0; i < FRAMES; i++) {
        seed = seed * 1664525 + 1013904223;
        run[i].reissues = (uint16_t)(seed >> 30);
    }
    for (l = 0; l < sizeof lengths / sizeof lengths[0]; l++)
        for (w = 0; w < sizeof widths / sizeof widths[0]; w++)
            compare(lengths[l], widths[w], plain(lengths[l], widths[w]));
}

int main(void)
{
    at_every_place(1);
    at_every_place(2);
    at_every_place(30);
    of_any_length(1);
    of_any_length(2);
    printf("%u compared\n", compared);
    return (int)failed;
}
