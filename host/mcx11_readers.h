/**
 * @file mcx11_readers.h
 * @brief The readers of the MCX11 executive's state. Include mcx11_state.h, which has this file twice.
 *
 * All that a header knows of the layout of docs/MEMORY.md, but for the answer, is here. What there is not (a task above T, say) gives
 * 0 or NULL; nothing outside *m is read, whatever it holds. The readers stand here as the controller has them; the module's are read
 * from this file too, by their names in mcx11_as_module.h.
 */

/** @cond the header's own */
static inline struct mcx11_layout_t mcx11_layout(const mcx11_t *m)
{
    const uint8_t *c = m->config + MCX11_AT_FRAME;
    const size_t semaphores = (size_t)c[0] + c[1] + c[2] + c[2];
    const size_t one = c[0] >= 1 && c[0] <= MCX11_MOST(TASKS) && c[2] <= MCX11_MOST(QUEUES) &&
                       c[3] <= MCX11_MOST(TIMERS) && c[4] <= MCX11_MOST(MESSAGES) && semaphores <= 255;
    const size_t length = (size_t)m->config[MCX11_AT_PART] << 8 | m->config[MCX11_AT_PART + 1];
    const size_t end = MCX11_AT_FRAME + length, behind = sizeof m->config - MCX11_AT_PART; /* there the mark stands again */
    struct mcx11_layout_t at; /* where the counts are no configuration's, there is nothing at all */
    at.tasks = one * c[0];
    at.named = one * c[1];
    at.queues = one * c[2];
    at.timers = one * c[3];
    at.messages = one * c[4];
    at.semaphores = one * semaphores;
    at.at_sizes = MCX11_AT_FRAME + 8 + at.tasks;
    at.at_pairs = at.at_sizes + 2 * at.queues;
    at.pairs = one && end <= behind && end >= at.at_pairs ? (end - at.at_pairs) / 2 : 0;
    at.at_ticks = MCX11_AT_PART;
    at.at_count = at.at_ticks + 1;
    at.at_planes = at.at_count + 1;
    at.at_semaphores = at.at_planes + 64 + 6 * at.tasks;
    at.at_rings = at.at_semaphores + at.semaphores + 16 * at.tasks;
    at.at_messages = at.at_rings + 2 * at.queues;
    at.at_entries = at.at_messages + 4 * at.messages;
    return at;
}

/* Of the configuration's bytes from a place on the two that a number has, 1 the first; two zeros if there are not so many. */
static inline const uint8_t *mcx11_two(const mcx11_t *m, size_t place, size_t many, uint8_t number)
{
    static const uint8_t none[2] = {0, 0};
    return number >= 1 && number <= many ? m->config + place + 2 * ((size_t)number - 1) : none;
}

/* How many timers run. Their rows are 1, 2 and so on; row 0 is their clock. */
static inline size_t mcx11_timer_rows(const mcx11_t *m)
{
    const size_t most = mcx11_layout(m).timers, run = m->timers[MCX11_AT_PART];
    return run < most ? run : most;
}

/* The ten bytes of a row. */
static inline const uint8_t *mcx11_timer_record(const mcx11_t *m, size_t row)
{
    return m->timers + MCX11_AT_PART + 1 + 10 * row;
}

/* Four bytes of a row, low byte first: at 2 when a timer is due, and the time; at 6 its period, and the floor. */
static inline uint32_t mcx11_timer_four(const mcx11_t *m, size_t row, size_t place)
{
    const uint8_t *four = mcx11_timer_record(m, row) + place;
    return (uint32_t)four[3] << 24 | (uint32_t)four[2] << 16 | (uint32_t)four[1] << 8 | four[0];
}

/* The row of the task's timer on this semaphore; 0 if there is none. */
static inline size_t mcx11_timer_row(const mcx11_t *m, uint8_t task, uint8_t semaphore)
{
    const size_t rows = mcx11_timer_rows(m);
    size_t row;
    for (row = 1; row <= rows; row++) {
        const uint8_t *record = mcx11_timer_record(m, row);
        if (record[0] == task && record[1] == semaphore)
            return row;
    }
    return 0;
}

/* When the timer of a row is due: at the time in its row, but no later than those behind it, and not before the floor. */
static inline uint32_t mcx11_timer_due(const mcx11_t *m, size_t row)
{
    const size_t rows = mcx11_timer_rows(m);
    const uint32_t least = mcx11_timer_four(m, 0, 6);
    uint32_t due = mcx11_timer_four(m, row, 2);
    while (++row <= rows) {
        const uint32_t other = mcx11_timer_four(m, row, 2);
        due = other < due ? other : due;
    }
    return due < least ? least : due;
}
/** @endcond */

/** The ticks left in the present tock. */
static inline uint8_t mcx11_ticks_left(const mcx11_t *m)
{
    const uint8_t left = m->tables[mcx11_layout(m).at_ticks], all = m->config[MCX11_AT_FRAME + 5];
    return left >= 1 && left <= all ? left : all;
}

/** T, the tasks of the configuration; 0 before it. */
static inline uint8_t mcx11_tasks(const mcx11_t *m) { return (uint8_t)mcx11_layout(m).tasks; }

/** The number of the task's own semaphore, S + t. */
static inline uint8_t mcx11_own_semaphore(const mcx11_t *m, uint8_t task)
{
    const struct mcx11_layout_t at = mcx11_layout(m);
    return task >= 1 && task <= at.tasks ? (uint8_t)(at.named + task) : (uint8_t)0;
}

/** The task's blocks, bits of enum mcx11_block; 0 if it is runnable. */
static inline uint8_t mcx11_blocks(const mcx11_t *m, uint8_t task)
{
    const struct mcx11_layout_t at = mcx11_layout(m);
    unsigned blocks = 0;
    size_t plane;
    if (task < 1 || task > at.tasks) {
        return 0;
    }
    for (plane = 0; plane < 4; plane++) {
        const unsigned bits = m->tables[at.at_planes + 16 * plane + (task - 1u) / 8];
        blocks |= (bits >> (task - 1u) % 8 & 1u) << plane;
    }
    return (uint8_t)blocks;
}

/** The task's slot of 16 bytes; its last entry stands in front. */
static inline const uint8_t *mcx11_slot(const mcx11_t *m, uint8_t task)
{
    return task >= 1 && task <= mcx11_layout(m).tasks ? m->slots + MCX11_AT_PART + 16 * ((size_t)task - 1) : NULL;
}

/** The semaphore's state: MCX11_PENDING, MCX11_DONE, or the number of the task that waits. Queue q has S + T + 2q - 1 and the
 * next, not-empty and not-full. */
static inline uint8_t mcx11_semaphore(const mcx11_t *m, uint8_t semaphore)
{
    const struct mcx11_layout_t at = mcx11_layout(m);
    const uint8_t state = semaphore >= 1 && semaphore <= at.semaphores ? m->tables[at.at_semaphores + semaphore - 1] : 0;
    return state <= at.tasks ? state : MCX11_DONE;
}

/** How many messages lie in the task's mailbox. */
static inline uint8_t mcx11_mailbox_count(const mcx11_t *m, uint8_t task)
{
    const struct mcx11_layout_t at = mcx11_layout(m);
    const size_t told = m->tables[at.at_count], lie = told < at.messages ? told : at.messages;
    uint8_t count = 0;
    size_t i;
    for (i = 0; i < lie; i++) {
        const uint8_t to = m->tables[at.at_messages + 4 * i];
        if (task >= 1 && task == (to >= 1 && to <= at.tasks ? to : 1))
            count++;
    }
    return count;
}

/** The width and the depth of the queue. */
static inline mcx11_queue_t mcx11_queue_size(const mcx11_t *m, uint8_t queue)
{
    const struct mcx11_layout_t at = mcx11_layout(m);
    const uint8_t *two = mcx11_two(m, at.at_sizes, at.queues, queue);
    const mcx11_queue_t size = {two[0], two[1]};
    return size;
}

/** How many pairs of tasks the configuration has. */
static inline uint8_t mcx11_pairs(const mcx11_t *m) { return (uint8_t)mcx11_layout(m).pairs; }

/** A pair of the configuration, by its number from 1 on. */
static inline mcx11_pair_t mcx11_pair(const mcx11_t *m, uint8_t pair)
{
    const struct mcx11_layout_t at = mcx11_layout(m);
    const uint8_t *two = mcx11_two(m, at.at_pairs, at.pairs, pair);
    const mcx11_pair_t both = {two[0], two[1]};
    return both;
}

/** How many entries the queue holds. */
static inline uint8_t mcx11_queue_count(const mcx11_t *m, uint8_t queue)
{
    const struct mcx11_layout_t at = mcx11_layout(m);
    const uint8_t depth = mcx11_queue_size(m, queue).depth;
    const uint8_t held = depth == 0 ? 0 : m->tables[at.at_rings + 2 * ((size_t)queue - 1) + 1];
    return held < depth ? held : depth;
}

/** An entry that the queue holds, width bytes: 0 is the oldest. */
static inline const uint8_t *mcx11_queue_entry(const mcx11_t *m, uint8_t queue, uint8_t turn)
{
    const struct mcx11_layout_t at = mcx11_layout(m);
    const mcx11_queue_t size = mcx11_queue_size(m, queue);
    size_t from = at.at_entries, oldest;
    uint8_t q;
    if (turn >= mcx11_queue_count(m, queue))
        return NULL;
    for (q = 1; q < queue; q++)
        from += (size_t)mcx11_queue_size(m, q).width * mcx11_queue_size(m, q).depth;
    oldest = m->tables[at.at_rings + 2 * ((size_t)queue - 1)];
    from += ((oldest < size.depth ? oldest : 0) + turn) % size.depth * size.width;
    return from + size.width <= sizeof m->tables ? m->tables + from : NULL;
}

/** How many timers run. */
static inline uint8_t mcx11_timer_count(const mcx11_t *m)
{
    return (uint8_t)mcx11_timer_rows(m);
}

/** The tocks until the task's timer on this semaphore is due, as both are numbered (not 0); 0 if there is none. They may be
 * 2,147,483,648, one more than an int32_t holds. */
static inline uint32_t mcx11_tocks_left(const mcx11_t *m, uint8_t task, uint8_t semaphore)
{
    const size_t row = mcx11_timer_row(m, task, semaphore);
    const uint32_t now = mcx11_timer_four(m, 0, 2), due = row == 0 ? now : mcx11_timer_due(m, row);
    return due < now ? 0 : due - now;
}

/** The period of the task's timer on this semaphore, up to as many; 0 if it is a one-shot, or there is none. */
static inline uint32_t mcx11_period(const mcx11_t *m, uint8_t task, uint8_t semaphore)
{
    const size_t row = mcx11_timer_row(m, task, semaphore);
    return row == 0 ? 0 : mcx11_timer_four(m, row, 6);
}
