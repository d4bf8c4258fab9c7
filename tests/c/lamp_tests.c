/* free_from_now of docs/HOST.md, and the same by the tocks counted since the configuration, beside what the executive's timers do: two
   brake checks are started in some tocks, and the lamp test is tried from every start. lamps.c is the page's; its main has another name
   here. Exit status 1 at a difference. Valid as C and as C++. */
#define main main_of_the_page
#include "lamps.c"
#undef main

#define LONGEST 12 /* a period; any two of them meet within 132 tocks, or never */

static uint32_t tocks;                /* since the configuration */
static mcx11_cycle_t counted[CHECKS]; /* the brake checks, by these */
static unsigned with_start, without, failed;

static uint32_t below(uint32_t limit)
{
    static uint32_t seed = 11;
    seed = seed * 1664525 + 1013904223;
    return (seed >> 8) % limit;
}

/* A new run, in which the brake checks are started in some tocks. */
static void begin(void)
{
    static mcx11_configuration_t configuration; /* static, so that all bytes are 0 */
    uint8_t i;
    configuration.tasks = 1;
    configuration.named_semaphores = 3;
    configuration.timers = 3;
    configuration.ticks_per_tock = 1;
    configuration.milliseconds_per_tock = 125;
    mcx11_configure_from(&ride, &configuration);
    tocks = 0;
    for (i = 0; i <= CHECKS; i++) {
        const uint32_t later = below(2 * LONGEST);
        pass(later);
        tocks += later;
        if (i == CHECKS)
            return;
        counted[i].start = tocks;
        counted[i].period = 1 + below(LONGEST);
        mcx11_timer(&ride, 1, (uint8_t)(i + 1), MCX11_EVERY((int32_t)counted[i].period));
    }
}

/* Whether a lamp test that is started so many tocks from now falls in the tock of a brake check. The ride is left as it was. */
static int meets(uint32_t period, uint32_t from_now)
{
    const mcx11_t before = ride;
    int met = 0;
    unsigned i;
    pass(from_now);
    mcx11_timer(&ride, 1, LAMPS, MCX11_EVERY((int32_t)period));
    for (i = 0; i < 132 + 2 * LONGEST; i++) {
        met |= due(LAMPS) && (due(1) || due(2));
        pass(1);
    }
    ride = before;
    return met;
}

/* The smallest start that meets no brake check, tried one by one, where start 0 is so many tocks from now; the period if there is none. */
static uint32_t tried(uint32_t period, uint32_t from_now)
{
    uint32_t start;
    for (start = 0; start < period; start++)
        if (!meets(period, (from_now + start) % period))
            return start;
    return period;
}

static void compare(const char *how, uint32_t period, uint8_t given, uint32_t told, uint32_t due_start)
{
    const uint8_t due_number = due_start == period ? MCX11_NO_START : MCX11_ACCEPTED;
    if (given == due_number && (given == MCX11_NO_START || told == due_start))
        return;
    failed = 1;
    fprintf(stderr, "%s, every %u beside %u in %u and %u in %u: %u, %u; tried %u\n", how, (unsigned)period,
            (unsigned)counted[0].period, (unsigned)counted[0].start, (unsigned)counted[1].period, (unsigned)counted[1].start,
            (unsigned)given, (unsigned)told, (unsigned)due_start);
}

int main(void)
{
    unsigned runs;
    for (runs = 0; runs < 400; runs++) {
        uint32_t period, told = 77;
        begin();
        for (period = 1; period <= LONGEST; period++) {
            uint8_t given = free_from_now(period, &told);
            compare("from now", period, given, told, tried(period, 0));
            given = mcx11_free_start(counted, CHECKS, period, &told);
            compare("counted", period, given, told, tried(period, period - tocks % period));
            if (given == MCX11_NO_START)
                without++;
            else
                with_start++;
        }
    }
    printf("%u with a start, %u without\n", with_start, without);
    return (int)failed;
}
