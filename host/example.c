/* A host of the executive: it configures, feeds frames as a ride's tasks and interrupts would, says what each answer means, and
   what to do about a refusal. It asks when a lamp test may be started that never falls in the tock of a brake check. It keeps a record
   of each frame, and says at the end which frames were the busiest. A real host also switches stacks where it says "switch" here; see
   docs/HOST.md. */
#include <stdio.h>
#include <stdlib.h>

#include "mcx11.h"

#define TOCK_MS 125
#define TICKS_PER_TOCK 1

static mcx11_t ride;   /* static, so that all bytes are 0 */
static uint8_t before; /* the task that ran before the call */

static mcx11_record_t records[MCX11_MOST_RECORDS]; /* of the frames that have an answer, oldest first */
static size_t kept;                                /* how many */
static uint32_t ticks;                             /* since the configuration */

static mcx11_cycle_t checks[MCX11_MOST_CYCLES]; /* of the brakes: the tock that each was started in, and its period */
static size_t check_count;                      /* how many */

/* What to do about each number. */
static const char *advice(uint8_t number)
{
    switch (number) {
    case MCX11_NUMBER_LINE: return "send upper-case digits in pairs, 652 at most, and nothing else";
    case MCX11_NUMBER_LENGTH: return "send five bytes, for a season timer seven, for an enqueue also its entry; for a configuration 8 + T + 2Q and its pairs";
    case MCX11_NUMBER_CONFIGURATION: return "correct the configuration's values; none was started";
    case MCX11_NUMBER_CODE: return "send a code from $01 to $12";
    case MCX11_NUMBER_TASK: return "name a task of the configuration, and 0 only for self or any";
    case MCX11_NUMBER_SEMAPHORE: return "name a semaphore from 0 to S + T";
    case MCX11_NUMBER_QUEUE: return "name a queue of the configuration";
    case MCX11_NUMBER_MESSAGE: return "name a message from 1 to G";
    case MCX11_NUMBER_TOCK_VALUE: return "give a tock value other than 0; more tocks than 16 bits hold take a season timer";
    case MCX11_NUMBER_MILLISECONDS: return "ask for at least one tock and at most 32,767";
    case MCX11_NUMBER_MEMORY: return "configure first; else stop, for someone wrote into the lent memory";
    case MCX11_NUMBER_NULL_TASK_RUNS: return "let tasks alone call services; the null task has none";
    case MCX11_NUMBER_SEMAPHORE_WAITING: return "give each semaphore one waiting task";
    case MCX11_NUMBER_MESSAGE_IN_MAILBOX: return "send the message again once it was received or dropped";
    case MCX11_NUMBER_ALL_TIMERS_ACTIVE: return "try again later, or configure more timers";
    case MCX11_NUMBER_HAS_A_TIMER: return "purge the old timer first";
    case MCX11_NUMBER_IDLE_OR_WAITING: return "delay tasks that are neither idle nor waiting";
    case MCX11_NUMBER_BEFORE_FIRST: return "execute its first tasks before it";
    case MCX11_NUMBER_ABOVE_MODULE: return "give the module a smaller part of the ride: host/both.c";
    case MCX11_NUMBER_STRETCH: return "give at most 4,096 records, and ask for a stretch of 1 up to all of them";
    case MCX11_NUMBER_CYCLES: return "give at most eight timers, and periods of 1 to 32,768 tocks";
    default: return "this number is new: see docs/HOST.md";
    }
}

static void print_digits(const uint8_t *bytes, size_t length)
{
    uint8_t line[MCX11_LINE_DIGITS];
    int32_t digits = mcx11_write_line(bytes, length, line, sizeof line);

    if (digits < 0) {
        fprintf(stderr, "no line: number %d: %s\n", (int)-digits, advice((uint8_t)-digits));
        exit(EXIT_FAILURE);
    }
    printf("%.*s", (int)digits, (const char *)line);
}

static void print_refusal(uint8_t number)
{
    printf("refused with %u ($%02X), %s: %s", number, number, mcx11_number_name(number), advice(number));
}

static void print_outcome(void)
{
    const uint8_t *value = mcx11_value(&ride);

    switch (mcx11_outcome(&ride)) {
    case MCX11_OUTCOME_PLAIN: printf("goes on"); break;
    case MCX11_OUTCOME_BEGIN: printf("begins"); break;
    case MCX11_OUTCOME_MESSAGE: printf("has message %u of task %u, semaphore %u", value[0], value[1], value[2]); break;
    case MCX11_OUTCOME_ENTRY:
        printf("has the entry $");
        print_digits(value, mcx11_value_length(&ride));
        break;
    case MCX11_OUTCOME_REFUSED:
        printf("was ");
        print_refusal(value[0]);
        break;
    case MCX11_OUTCOME_SEMAPHORE: printf("has seen semaphore %u", value[0]); break;
    case MCX11_OUTCOME_WOKE:
        if (value[0] == 0)
            printf("woke nobody");
        else
            printf("woke task %u", value[0]);
        break;
    default: printf("has an outcome that is new: see docs/HOST.md"); break;
    }
}

/* What came of a call, and which task is to run. */
static void print_call(const char *asked, uint8_t number)
{
    printf("%s\n    ", asked);
    if (number == MCX11_NUMBER_MEMORY) {
        print_refusal(number);
        printf("\n    there is no answer\n");
        return;
    }
    print_digits(mcx11_answer(&ride), mcx11_answer_length(&ride));
    if (number != MCX11_ACCEPTED) {
        printf("  ");
        print_refusal(number);
    }
    printf("\n    ");
    if (mcx11_running(&ride) != before)
        printf("switch: ");
    before = mcx11_running(&ride);
    if (before == 0) {
        printf("the null task idles\n");
        return;
    }
    printf("task %u ", before);
    print_outcome();
    if (mcx11_reissues(&ride) > 0)
        printf(", %u reissued", mcx11_reissues(&ride));
    printf("\n");
}

/* The tocks since the configuration. No answer tells them: the host counts the ticks. */
static uint32_t tocks(void) { return ticks / TICKS_PER_TOCK; }

/* Tells what came of a frame, and keeps a record of it if it has an answer: a refused one has, one that gave 11 has not. */
static void tell(const char *asked, uint8_t number)
{
    print_call(asked, number);
    if (number != MCX11_NUMBER_MEMORY && kept < MCX11_MOST_RECORDS)
        records[kept++] = mcx11_record(&ride, tocks());
}

/* The clock ticks. */
static void tick(void)
{
    const uint8_t number = mcx11_tick(&ride);

    if (number == MCX11_ACCEPTED)
        ticks++;
    tell("clock: tick", number);
}

/* A station, task 1, signals the gate, task 2, and sees whether it was waiting. If not, the signal is taken back: the gate is
   not to open unasked later. The outcome in the answer is task 1's, for task 1 has the lower number and goes on. */
static void open_the_gate(void)
{
    tell("task 1: signal semaphore 1, for the gate", mcx11_signal(&ride, 1));
    if (mcx11_outcome(&ride) == MCX11_OUTCOME_WOKE && mcx11_woke(&ride) == 0)
        tell("task 1: the gate was not waiting, so pend semaphore 1", mcx11_pend(&ride, 1));
}

/* Task 1 takes the numbers of three cars as task 2 puts them: it waits each time, and its request is reissued. */
static void count_the_cars(void)
{
    uint8_t car;

    for (car = 1; car <= 3; car++) {
        tell("task 1: take from queue 1", mcx11_dequeue(&ride, 1));
        tell("task 2: put a car's number into queue 1", mcx11_enqueue(&ride, 1, &car, sizeof car));
    }
}

/* A tock value for milliseconds. */
static uint16_t once(uint16_t ms)
{
    int32_t tocks = mcx11_milliseconds(ms, TOCK_MS);

    if (tocks < 0) {
        fprintf(stderr, "%u ms: number %d: %s\n", ms, (int)-tocks, advice((uint8_t)-tocks));
        exit(EXIT_FAILURE);
    }
    return MCX11_ONCE(tocks);
}

/* The configuration's pair says that the lap, task 3, is not started while the station, task 1, is idle. Task 2 starts the station,
   if that is why the lap is refused. The station has the lower number and runs at once; task 2 asks again when it runs again. */
static void start_the_lap(void)
{
    const uint8_t number = mcx11_execute(&ride, 3);

    tell("task 2: execute task 3, the lap", number);
    if (number != MCX11_NUMBER_BEFORE_FIRST)
        return;
    tell("task 2: the station is idle, so execute task 1 first", mcx11_execute(&ride, 1));
    tell("task 1: delay of 125 ms", mcx11_delay(&ride, MCX11_SELF, MCX11_OWN, once(125)));
    tell("task 2: execute task 3, the lap", mcx11_execute(&ride, 3));
}

/* The station, task 1, sends the lap a message and waits until it was read. The lap ends, and leaves it in its mailbox: terminate
   drops the message and signals its semaphore, so the station goes on. Its outcome is the same as when the lap has read it. */
static void end_the_lap(void)
{
    tell("task 1: send message 1 to task 3, the lap, and wait", mcx11_sendw(&ride, 1, 3, MCX11_OWN));
    tell("task 3: terminate itself, the message unread", mcx11_terminate(&ride, MCX11_SELF));
}

/* The station, task 1, has the wheels inspected every 30 days. So many tocks don't fit 16 bits: MCX11_EVERY gives 0, and the timer is
   refused with 9. A season timer has 32 bits. */
static void inspect_the_wheels(void)
{
    const int32_t days = (int32_t)30 * 24 * 3600 * (1000 / TOCK_MS);

    tell("task 1: timer of 30 days", mcx11_timer(&ride, MCX11_SELF, MCX11_OWN, MCX11_EVERY(days)));
    tell("task 1: season timer of 30 days", mcx11_season_timer(&ride, MCX11_SELF, MCX11_OWN, MCX11_SEASON_EVERY(days)));
}

/* Task 1 starts a brake check, and the host notes in which tock and with which period. */
static void check_the_brakes(const char *asked, uint8_t semaphore, uint16_t period)
{
    const uint8_t number = mcx11_timer(&ride, MCX11_SELF, semaphore, MCX11_EVERY(period));

    tell(asked, number);
    if (number == MCX11_ACCEPTED && check_count < MCX11_MOST_CYCLES) {
        checks[check_count].start = tocks();
        checks[check_count].period = period;
        check_count++;
    }
}

/* In which tock a lamp test with this period may be started, so that it never falls in the tock of a brake check. */
static uint8_t plan_the_lamps(uint32_t period, uint32_t *start)
{
    const uint8_t given = mcx11_free_start(checks, check_count, period, start);

    printf("a lamp test every %u tocks beside %u brake checks\n    ", (unsigned)period, (unsigned)check_count);
    if (given == MCX11_ACCEPTED)
        printf("start it in tock %u, %u, %u and so on", (unsigned)*start, (unsigned)(*start + period),
               (unsigned)(*start + 2 * period));
    else if (given == MCX11_NO_START)
        printf("whenever it is started, some day it falls in the tock of a brake check: ask for another period");
    else
        print_refusal(given);
    printf("\n");
    return given;
}

/* Brake checks every 6 and every 10 tocks, and a lamp test beside them. 40,000 tocks are too many for the question. 9 and 10 have no
   common divisor but 1, and such timers always meet. 4 has a free start; it is past, so the lamp test waits for a later one. */
static void test_the_lamps(void)
{
    const uint16_t period = 4;
    uint32_t start;

    check_the_brakes("task 1: timer on semaphore 2, a brake check every 6 tocks", 2, 6);
    tick();
    tick();
    check_the_brakes("task 1: timer on semaphore 3, a brake check every 10 tocks", 3, 10);
    plan_the_lamps(40000, &start);
    plan_the_lamps(9, &start);
    if (plan_the_lamps(period, &start) != MCX11_ACCEPTED)
        return;
    while (tocks() % period != start)
        tick();
    tell("task 1: timer on semaphore 4, the lamp test", mcx11_timer(&ride, MCX11_SELF, 4, MCX11_EVERY(period)));
}

/* Which w consecutive frames had the most reissues, the first frame behind the configuration being frame 1. */
static void print_the_busiest(size_t w)
{
    uint32_t sum;
    size_t place;
    const uint8_t number = mcx11_busiest(records, kept, w, &sum, &place);

    printf("the busiest %u of %u frames\n    ", (unsigned)w, (unsigned)kept);
    if (number == MCX11_ACCEPTED)
        printf("frames %u to %u, %u reissued, from tock %u on", (unsigned)(place + 1), (unsigned)(place + w), (unsigned)sum,
               (unsigned)records[place].tocks);
    else
        print_refusal(number);
    printf("\n");
}

int main(void)
{
    static const uint8_t entry[] = {0x41};
    static mcx11_configuration_t configuration; /* static, so that all bytes are 0 */
    uint8_t number;

    configuration.tasks = 3;
    configuration.named_semaphores = 4;
    configuration.queues = 1;
    configuration.timers = 4;
    configuration.messages = 1;
    configuration.ticks_per_tock = TICKS_PER_TOCK;
    configuration.milliseconds_per_tock = TOCK_MS;
    configuration.queue[1].width = 1;
    configuration.queue[1].depth = 1;
    configuration.idle[3] = 1;
    configuration.pairs = 1;
    configuration.pair[1].first = 1;
    configuration.pair[1].then = 3;

    tell("tick before the configuration", mcx11_tick(&ride));
    number = mcx11_configure_from(&ride, &configuration);
    print_call("configuration", number);
    if (number != MCX11_ACCEPTED)
        return EXIT_FAILURE;

    tell("task 1: take from queue 1", mcx11_dequeue(&ride, 1));
    tell("task 2: put $41 into queue 1", mcx11_enqueue(&ride, 1, entry, sizeof entry));
    tell("task 1: delay of 250 ms", mcx11_delay(&ride, MCX11_SELF, MCX11_OWN, once(250)));
    tick();
    tick();
    tell("task 1: take from queue 2", mcx11_dequeue(&ride, 2));
    tell("task 1: wait for semaphore 1", mcx11_wait(&ride, 1));
    tell("task 2: wait for semaphore 1", mcx11_wait(&ride, 1));
    tell("task 2: suspend itself", mcx11_suspend(&ride, MCX11_SELF));
    tell("device: interrupt exit with semaphore 1", mcx11_interrupt_exit(&ride, 1));
    open_the_gate();
    tell("task 1: resume task 2", mcx11_resume(&ride, 2));
    count_the_cars();
    tell("task 1: delay of 125 ms", mcx11_delay(&ride, MCX11_SELF, MCX11_OWN, once(125)));
    tell("task 2: wait for semaphore 1", mcx11_wait(&ride, 1));
    tick();
    open_the_gate();
    tell("task 1: terminate itself", mcx11_terminate(&ride, MCX11_SELF));
    start_the_lap();
    tell("task 2: suspend itself", mcx11_suspend(&ride, MCX11_SELF));
    tell("task 3: pend semaphore 1, so that the gate stays shut", mcx11_pend(&ride, 1)); /* its first service: it has begun */
    tick();
    end_the_lap();
    inspect_the_wheels();
    test_the_lamps();
    print_the_busiest(5);
    print_the_busiest(kept + 1);
    return EXIT_SUCCESS;
}
