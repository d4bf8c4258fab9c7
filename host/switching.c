/* A host that switches: each task is a C function with a stack of its own. POSIX's ucontext stands where a controller has its
   assembly, interrupt_here where a device interrupts a task, and a POSIX signal where one interrupts a call. The rules are
   those of docs/HOST.md. */
#define _XOPEN_SOURCE 600
#include <signal.h>
#include <stdio.h>
#include <stdlib.h>
#include <string.h>
#include <ucontext.h>

#include "mcx11.h"

#define TASKS 3
#define STACK_BYTES 65536
#define BUTTON 1  /* the semaphore that the operator's button signals */
#define EFFECTS 1 /* the queue from lap to display */

/* What a task learns from its service. */
struct told {
    uint8_t number; /* 0 accepted */
    uint8_t kind;
    uint8_t value[MCX11_ENTRY_BYTES];
};

struct task {
    ucontext_t saved; /* its registers and stack pointer */
    char stack[STACK_BYTES];
    int in_service; /* it left by a service, and has not been told what came of it */
    struct told told;
};

static mcx11_t ride;
static struct task tasks[TASKS + 1];
static ucontext_t host;
static uint8_t running; /* whose stack and registers the processor has; 0 while it idles */
static struct {
    uint8_t code, a, b;
    uint16_t x;
    const uint8_t *entry;
    size_t width;
} asked;
static int pressed_during_call; /* the button is pressed while the next call runs */

/* ---- on the tasks' stacks */

static void leave(uint8_t code, uint8_t a, uint8_t b, uint16_t x)
{
    asked.code = code;
    asked.a = a;
    asked.b = b;
    asked.x = x;
    swapcontext(&tasks[running].saved, &host); /* save */
}

static struct told service(uint8_t code, uint8_t a, uint8_t b, uint16_t x)
{
    tasks[running].in_service = 1;
    leave(code, a, b, x);
    return tasks[running].told;
}

static struct told put(uint8_t queue, const uint8_t *entry, size_t width)
{
    asked.entry = entry;
    asked.width = width;
    return service(MCX11_ENQUEUE, queue, 0, 0);
}

static void interrupt_here(uint8_t semaphore) { leave(MCX11_INTERRUPT_EXIT, 0, semaphore, 0); }

static void gate(void)
{
    struct told told;

    printf("gate: begins\n");
    told = service(MCX11_RECEIVE, MCX11_ANY, 0, 0);
    printf("gate: message %u of task %u, semaphore %u\n", told.value[0], told.value[1], told.value[2]);
    told = service(MCX11_SIGNAL, 0, told.value[2], 0);
    printf("gate: its signal woke task %u\n", told.value[0]);
    told = service(MCX11_WAIT, 0, BUTTON, 0);
    printf("gate: semaphore %u\n", told.value[0]);
    told = service(MCX11_WAIT, 0, BUTTON, 0);
    printf("gate: semaphore %u once more\n", told.value[0]);
    service(MCX11_DELAY, MCX11_SELF, MCX11_OWN, MCX11_ONCE(2));
    printf("gate: two tocks later\n");
    service(MCX11_TERMINATE, MCX11_SELF, 0, 0);
}

static void lap(void)
{
    static const uint8_t effects[2] = {0x41, 0x42};
    struct told told;
    int laps = 1;

    printf("lap: begins\n");
    interrupt_here(MCX11_NONE);
    printf("lap: goes on where it was interrupted\n");
    told = service(MCX11_SENDW, 1, MCX11_OWN, 1);
    printf("lap: the gate has read the message, semaphore %u\n", told.value[0]);
    laps++;
    interrupt_here(BUTTON);
    printf("lap: %d laps, the gate ran in between\n", laps);
    pressed_during_call = 1;
    told = put(EFFECTS, effects, 1);
    printf("lap: the put has number %u, the gate ran in between\n", told.number);
    told = service(MCX11_DELAY, MCX11_SELF, MCX11_OWN, MCX11_ONCE(1));
    printf("lap: refused with %u, the only timer is the gate's\n", told.number);
    service(MCX11_EXECUTE, 3, 0, 0);
    service(MCX11_WAIT, 0, MCX11_OWN, 0);
    printf("lap: starts the display once more\n");
    service(MCX11_EXECUTE, 3, 0, 0);
    put(EFFECTS, effects + 1, 1);
    service(MCX11_TERMINATE, MCX11_SELF, 0, 0);
}

static void display(void)
{
    struct told told;

    printf("display: begins\n");
    told = service(MCX11_DEQUEUE, EFFECTS, 0, 0);
    printf("display: effect $%02X\n", told.value[0]);
    told = service(MCX11_SIGNAL, 0, 3, 0); /* 3 is the lap task's own semaphore */
    printf("display: ends, %s\n", told.value[0] == 0 ? "its signal woke nobody" : "the lap task was waiting");
    service(MCX11_TERMINATE, MCX11_SELF, 0, 0);
}

/* ---- on the host's stack */

/* Rule 1: an interrupt while the host is in a call makes none. It notes its semaphore. */
static volatile sig_atomic_t noted[4], notes;

static void button_during_call(int signal_number)
{
    (void)signal_number;
    if (notes < 4)
        noted[notes++] = BUTTON;
}

/* The call that was asked for, and then those that were noted meanwhile, in order. Gives the number of the first. */
static uint8_t carry_out(void)
{
    uint8_t number;
    int done;

    if (pressed_during_call) {
        pressed_during_call = 0;
        raise(SIGUSR1);
    }
    if (asked.code == MCX11_ENQUEUE)
        number = mcx11_enqueue(&ride, asked.a, asked.entry, asked.width);
    else
        number = mcx11_call(&ride, asked.code, asked.a, asked.b, asked.x);
    for (done = 0; done < notes; done++) {
        printf("the host makes the call of an interrupt that came during a call\n");
        mcx11_interrupt_exit(&ride, (uint8_t)noted[done]);
    }
    notes = 0; /* a controller disables interrupts from the last test of notes to the switch */
    return number;
}

/* Rule 3: a stack that is empty but for the entry point. */
static void fresh(uint8_t task)
{
    static void (*const entry_points[TASKS + 1])(void) = {NULL, gate, lap, display};

    getcontext(&tasks[task].saved);
    tasks[task].saved.uc_stack.ss_sp = tasks[task].stack;
    tasks[task].saved.uc_stack.ss_size = STACK_BYTES;
    makecontext(&tasks[task].saved, entry_points[task], 0);
    tasks[task].in_service = 0;
}

/* Rule 4: the outcome goes to a task that left by a service, once. Its number stands there since the call. */
static void hand_over(uint8_t task)
{
    if (tasks[task].in_service) {
        tasks[task].told.kind = mcx11_outcome(&ride);
        memcpy(tasks[task].told.value, mcx11_value(&ride), mcx11_value_length(&ride));
        tasks[task].in_service = 0;
    }
}

int main(void)
{
    static mcx11_configuration_t configuration; /* static, so that all bytes are 0 */
    uint8_t number, task;
    int ticks = 0;

    configuration.tasks = TASKS;
    configuration.named_semaphores = 1;
    configuration.queues = 1;
    configuration.timers = 1;
    configuration.messages = 1;
    configuration.ticks_per_tock = 1;
    configuration.milliseconds_per_tock = 100;
    configuration.idle[3] = 1;
    configuration.queue[EFFECTS].width = 1;
    configuration.queue[EFFECTS].depth = 1;
    number = mcx11_configure_from(&ride, &configuration);
    if (number != MCX11_ACCEPTED) {
        fprintf(stderr, "the configuration is refused with %u: docs/HOST.md says what to do\n", number);
        return EXIT_FAILURE;
    }
    signal(SIGUSR1, button_during_call);
    for (task = 1; task <= TASKS; task++)
        fresh(task);
    for (;;) {
        running = mcx11_running(&ride); /* rule 2: switch on every answer */
        if (running != 0) {
            hand_over(running);
            swapcontext(&host, &tasks[running].saved);
        } else if (ticks++ < 2) {
            printf("the clock ticks\n");
            asked.code = MCX11_TICK;
        } else {
            printf("all is done\n");
            return EXIT_SUCCESS;
        }
        number = carry_out();
        if (tasks[running].in_service)
            tasks[running].told.number = number; /* the caller's, whoever is switched to */
        if (number == MCX11_NUMBER_MEMORY) {
            fprintf(stderr, "somebody wrote into the lent memory: stop the ride and configure anew\n");
            return EXIT_FAILURE;
        }
        if (asked.code == MCX11_EXECUTE && number == MCX11_ACCEPTED)
            fresh(asked.a);
    }
}
