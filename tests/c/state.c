/* Lent memories from standard input, one behind the other; of each the state to standard output, as host/mcx11_state.h reads it, a
   line for each item. Exit status 1 for an answer that does not fit. Valid as C and as C++. */
#include "mcx11_state.h"

#include <stdio.h>

static mcx11_t ride;

static void print_bytes(const uint8_t *bytes, size_t length)
{
    size_t i;
    if (bytes == NULL)
        printf(" none");
    for (i = 0; bytes != NULL && i < length; i++)
        printf("%s%02X", i == 0 ? " " : "", bytes[i]);
}

static void print_pairs(void)
{
    unsigned n;
    printf("pairs %u:", mcx11_pairs(&ride));
    for (n = 0; n <= 255; n++) {
        const mcx11_pair_t pair = mcx11_pair(&ride, (uint8_t)n);
        if (pair.first != 0 || pair.then != 0)
            printf(" %u %u-%u", n, pair.first, pair.then);
    }
    printf("\n");
}

static void print_task(uint8_t task)
{
    printf("task %u blocks %u own %u mailbox %u slot", task, mcx11_blocks(&ride, task), mcx11_own_semaphore(&ride, task),
           mcx11_mailbox_count(&ride, task));
    print_bytes(mcx11_slot(&ride, task), 16);
    printf("\n");
}

static void print_queue(uint8_t queue)
{
    const mcx11_queue_t size = mcx11_queue_size(&ride, queue);
    const uint8_t count = mcx11_queue_count(&ride, queue);
    unsigned turn;
    printf("queue %u width %u depth %u holds %u:", queue, size.width, size.depth, count);
    for (turn = 0; turn <= count; turn++) /* the last one is none */
        print_bytes(mcx11_queue_entry(&ride, queue, (uint8_t)turn), size.width);
    printf("\n");
}

static void print_timer(uint8_t task, uint8_t semaphore)
{
    const uint32_t left = mcx11_tocks_left(&ride, task, semaphore), period = mcx11_period(&ride, task, semaphore);
    if (left != 0 || period != 0)
        printf("timer %u %u left %lu period %lu\n", task, semaphore, (unsigned long)left, (unsigned long)period);
}

/* Every number a byte can have, also those that there are not. */
int main(void)
{
    while (fread(&ride, sizeof ride, 1, stdin) == 1) {
        unsigned i, j;
        if (mcx11_answer_length(&ride) >= MCX11_ANSWER_BYTES || mcx11_value_length(&ride) > MCX11_ENTRY_BYTES)
            return 1;
        printf("tasks %u ticks left %u timers %u\n", mcx11_tasks(&ride), mcx11_ticks_left(&ride), mcx11_timer_count(&ride));
        print_pairs();
        for (i = 0; i <= 255; i++) {
            if (mcx11_slot(&ride, (uint8_t)i) != NULL || mcx11_blocks(&ride, (uint8_t)i) != 0 ||
                mcx11_own_semaphore(&ride, (uint8_t)i) != 0 || mcx11_mailbox_count(&ride, (uint8_t)i) != 0)
                print_task((uint8_t)i);
        }
        for (i = 0; i <= 255; i++) {
            const uint8_t state = mcx11_semaphore(&ride, (uint8_t)i);
            if (state == MCX11_DONE)
                printf("semaphore %u DONE\n", i);
            else if (state != MCX11_PENDING)
                printf("semaphore %u WAITING with %u\n", i, state);
        }
        for (i = 0; i <= 255; i++)
            if (mcx11_queue_size(&ride, (uint8_t)i).width != 0 || mcx11_queue_count(&ride, (uint8_t)i) != 0)
                print_queue((uint8_t)i);
        for (i = 0; i <= 255; i++)
            for (j = 0; j <= 255; j++)
                print_timer((uint8_t)i, (uint8_t)j);
        printf("\n");
    }
    return 0;
}
