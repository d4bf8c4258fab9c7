/* One machine, two executives: the ride controller's and the brake module's. A configuration that both accept begins the same on
   both, and every frame is answered alike. A larger one is refused by the module with 27; the host says what is too much, and gives
   the module the brakes alone. See docs/HOST.md. */
#include <stdio.h>
#include <stdlib.h>
#include <string.h>

#include "mcx11.h"

#define TRAIN_IN 1 /* the semaphore that the light barrier in front of the brake signals */

static mcx11_t ride; /* both static, so that all bytes are 0 */
static mcx11_module_t brake;

static void print_answer(const char *whose, const uint8_t *answer, size_t length)
{
    uint8_t line[MCX11_LINE_DIGITS];
    const int32_t digits = mcx11_write_line(answer, length, line, sizeof line);

    printf("    %-12s%.*s\n", whose, digits < 0 ? 0 : (int)digits, (const char *)line);
}

static int answered_alike(void)
{
    const size_t length = mcx11_answer_length(&ride);

    return length == mcx11_module_answer_length(&brake) &&
           memcmp(mcx11_answer(&ride), mcx11_module_answer(&brake), length) == 0;
}

/* What both answered to the same. */
static void tell(const char *asked)
{
    printf("%s\n", asked);
    print_answer("controller", mcx11_answer(&ride), mcx11_answer_length(&ride));
    print_answer("module", mcx11_module_answer(&brake), mcx11_module_answer_length(&brake));
    printf("    %s\n", answered_alike() ? "alike" : "not alike");
}

/* The same call on both. */
static void call(const char *asked, uint8_t code, uint8_t a, uint8_t b, uint16_t x)
{
    mcx11_call(&ride, code, a, b, x);
    mcx11_module_call(&brake, code, a, b, x);
    tell(asked);
}

/* The brakes: task 1 brakes a train, task 2 takes entries of a byte for the panel. */
static mcx11_configuration_t brakes(void)
{
    mcx11_configuration_t configuration;

    memset(&configuration, 0, sizeof configuration);
    configuration.tasks = 2;
    configuration.named_semaphores = 1;
    configuration.queues = 1;
    configuration.timers = 1;
    configuration.messages = 1;
    configuration.ticks_per_tock = 1;
    configuration.milliseconds_per_tock = 125;
    configuration.queue[1].width = 1;
    configuration.queue[1].depth = 4;
    return configuration;
}

/* The whole ride: more tasks, and a second queue for the effects. */
static mcx11_configuration_t whole_ride(void)
{
    mcx11_configuration_t configuration = brakes();

    configuration.tasks = 20;
    configuration.queues = 2;
    configuration.queue[2].width = 8;
    configuration.queue[2].depth = 40;
    return configuration;
}

static void compare(const char *what, unsigned asked, unsigned most)
{
    if (asked > most)
        printf("    too much for the module: %u %s, there is room for %u\n", asked, what, most);
}

/* Which of the module's limits a configuration is above. */
static void say_what_is_too_much(const mcx11_configuration_t *configuration)
{
    unsigned queue_bytes = 0, q;

    for (q = 1; q <= configuration->queues; q++)
        queue_bytes += (unsigned)configuration->queue[q].width * configuration->queue[q].depth;
    compare("tasks", configuration->tasks, MCX11_MODULE_MOST_TASKS);
    compare("queues", configuration->queues, MCX11_MODULE_MOST_QUEUES);
    compare("timers", configuration->timers, MCX11_MODULE_MOST_TIMERS);
    compare("messages", configuration->messages, MCX11_MODULE_MOST_MESSAGES);
    compare("queue bytes", queue_bytes, MCX11_MODULE_MOST_QUEUE_BYTES);
}

/* The same configuration for both: whether each accepted it, or the module had no room. 27 leaves the module as it was: what was
 * begun there goes on. */
static int configure(const char *asked, const mcx11_configuration_t *configuration)
{
    const uint8_t of_ride = mcx11_configure_from(&ride, configuration);
    const uint8_t of_brake = mcx11_module_configure_from(&brake, configuration);

    tell(asked);
    if (of_brake == MCX11_NUMBER_ABOVE_MODULE)
        say_what_is_too_much(configuration);
    return of_ride == MCX11_ACCEPTED && (of_brake == MCX11_ACCEPTED || of_brake == MCX11_NUMBER_ABOVE_MODULE);
}

int main(void)
{
    mcx11_configuration_t configuration = brakes();

    printf("lent to the controller %u bytes, to the module %u\n", (unsigned)sizeof ride, (unsigned)sizeof brake);
    if (!configure("the brakes", &configuration))
        return EXIT_FAILURE;
    call("task 1: wait for the train", MCX11_WAIT, 0, TRAIN_IN, 0);
    call("task 2: take from queue 1", MCX11_DEQUEUE, 1, 0, 0);
    call("light barrier: the train is in", MCX11_INTERRUPT_EXIT, 0, TRAIN_IN, 0);
    call("task 1: brake for 2 tocks", MCX11_DELAY, MCX11_SELF, MCX11_OWN, MCX11_ONCE(2));
    call("clock: tick", MCX11_TICK, 0, 0, 0);
    call("clock: tick", MCX11_TICK, 0, 0, 0);
    call("task 1: take from queue 2", MCX11_DEQUEUE, 2, 0, 0);

    configuration = whole_ride();
    if (!configure("the whole ride", &configuration))
        return EXIT_FAILURE;
    call("clock: tick, and the brakes go on as they were", MCX11_TICK, 0, 0, 0);

    configuration = brakes(); /* the controller has the whole ride, and the module its part of it */
    if (mcx11_module_configure_from(&brake, &configuration) != MCX11_ACCEPTED)
        return EXIT_FAILURE;
    printf("the brakes alone, for the module\n");
    print_answer("module", mcx11_module_answer(&brake), mcx11_module_answer_length(&brake));
    return EXIT_SUCCESS;
}
