/**
 * @file mcx11_calls.h
 * @brief The calls of the MCX11 executive, and what reads its answer. Include mcx11.h, which has this file twice.
 *
 * They stand here as the controller has them, with an mcx11_t. The module's are read from this file too, by their names in
 * mcx11_as_module.h: mcx11_module_wait is mcx11_wait with an mcx11_module_t, and so are all others.
 */

/* ---- Any frame */

/**
 * Begins anew with this configuration, whatever *m held. A refused one changes the answer alone: what was begun before goes on
 * with the next frame, and this answer names no task to switch to.
 * @param m      the lent memory
 * @param bytes  the configuration frame, outside *m; after the call their place may be used again
 * @param length how many bytes
 * @return the number, 0 accepted
 */
static inline uint8_t mcx11_configure(mcx11_t *m, const uint8_t *bytes, size_t length)
{
    const uint8_t number = mcx11_configure_blocks(bytes, length, m->config, sizeof m->config, m->tables, sizeof m->tables,
                                                  m->slots, sizeof m->slots, m->timers, sizeof m->timers, m->answer,
                                                  sizeof m->answer);
#ifdef MCX11_HOOK
    MCX11_HOOK(m, MCX11_TRACED_CONFIGURATION, bytes, length, number);
#endif
    return number;
}

/** Carries out a frame; its bytes as above. @return the number, 0 accepted */
static inline uint8_t mcx11_frame(mcx11_t *m, const uint8_t *bytes, size_t length)
{
    const uint8_t number = mcx11_frame_blocks(bytes, length, m->config, sizeof m->config, m->tables, sizeof m->tables,
                                              m->slots, sizeof m->slots, m->timers, sizeof m->timers, m->answer,
                                              sizeof m->answer);
#ifdef MCX11_HOOK
    MCX11_HOOK(m, MCX11_TRACED_FRAME, bytes, length, number);
#endif
    return number;
}

/** The frame of five bytes: every code but enqueue, whose entry stands behind them, and season timer, whose tocks have two bytes
 * more. Those have calls of their own; by this one a season timer is refused with 2. @return the number, 0 accepted */
static inline uint8_t mcx11_call(mcx11_t *m, uint8_t code, uint8_t a, uint8_t b, uint16_t x)
{
    const uint8_t bytes[5] = {code, a, b, (uint8_t)(x >> 8), (uint8_t)(x & 0xFF)};
    return mcx11_frame(m, bytes, sizeof bytes);
}

/** Begins anew with this configuration. @return the number, 0 accepted. @see mcx11_configure */
static inline uint8_t mcx11_configure_from(mcx11_t *m, const mcx11_configuration_t *configuration)
{
    uint8_t bytes[MCX11_FRAME_BYTES];
    const size_t length = mcx11_configuration_bytes(configuration, bytes);
    return mcx11_configure(m, bytes, length);
}

/* ---- The services by names. Each gives the number, 0 accepted; docs/FRAMES.md says what they do. */

/** The running task waits until the semaphore is signalled; if it is DONE, not at all. */
static inline uint8_t mcx11_wait(mcx11_t *m, uint8_t semaphore) { return mcx11_call(m, MCX11_WAIT, 0, semaphore, 0); }

/** Wakes the task that waits on the semaphore; if none does, the semaphore is DONE. The outcome tells whom: mcx11_woke. */
static inline uint8_t mcx11_signal(mcx11_t *m, uint8_t semaphore) { return mcx11_call(m, MCX11_SIGNAL, 0, semaphore, 0); }

/** Makes the semaphore PENDING. */
static inline uint8_t mcx11_pend(mcx11_t *m, uint8_t semaphore) { return mcx11_call(m, MCX11_PEND, 0, semaphore, 0); }

/** Puts the message into the task's mailbox, with a semaphore to signal when it was read. While it lies there, a terminate of the
 * task drops it and signals the semaphore. */
static inline uint8_t mcx11_send(mcx11_t *m, uint16_t message, uint8_t task, uint8_t semaphore)
{
    return mcx11_call(m, MCX11_SEND, task, semaphore, message);
}

/** The same, and the running task waits on the semaphore. Its outcome does not tell read from dropped. */
static inline uint8_t mcx11_sendw(mcx11_t *m, uint16_t message, uint8_t task, uint8_t semaphore)
{
    return mcx11_call(m, MCX11_SENDW, task, semaphore, message);
}

/** The running task takes a message from its mailbox, or waits for one. */
static inline uint8_t mcx11_receive(mcx11_t *m, uint8_t sender) { return mcx11_call(m, MCX11_RECEIVE, sender, 0, 0); }

/** The running task takes the oldest entry, or waits for one. */
static inline uint8_t mcx11_dequeue(mcx11_t *m, uint8_t queue) { return mcx11_call(m, MCX11_DEQUEUE, queue, 0, 0); }

/** The running task puts an entry of width bytes, or waits for room. The bytes are copied. */
static inline uint8_t mcx11_enqueue(mcx11_t *m, uint8_t queue, const uint8_t *entry, size_t width)
{
    uint8_t bytes[5 + MCX11_ENTRY_BYTES] = {MCX11_ENQUEUE, 0, 0, 0, 0};
    const size_t copied = width > MCX11_ENTRY_BYTES ? 0 : width; /* 0 is refused as any other wrong width is */
    size_t i;
    bytes[1] = queue;
    for (i = 0; i < copied; i++)
        bytes[5 + i] = entry[i];
    return mcx11_frame(m, bytes, 5 + copied);
}

/** Ends the task's suspension. */
static inline uint8_t mcx11_resume(mcx11_t *m, uint8_t task) { return mcx11_call(m, MCX11_RESUME, task, 0, 0); }

/** Suspends the task until it is resumed or executed. */
static inline uint8_t mcx11_suspend(mcx11_t *m, uint8_t task) { return mcx11_call(m, MCX11_SUSPEND, task, 0, 0); }

/** Ends the task: it is idle, and its timers are gone. The messages in its mailbox are dropped, and the semaphore of each is
 * signalled: a task that waits on it is woken, and if none does, the semaphore is DONE. No outcome tells whom that woke. */
static inline uint8_t mcx11_terminate(mcx11_t *m, uint8_t task) { return mcx11_call(m, MCX11_TERMINATE, task, 0, 0); }

/** Starts the task from its beginning. Refused with 26 while a task that a pair of the configuration puts first is idle. */
static inline uint8_t mcx11_execute(mcx11_t *m, uint8_t task) { return mcx11_call(m, MCX11_EXECUTE, task, 0, 0); }

/** Starts a timer, and has the task wait on the semaphore that it will signal. The tocks: MCX11_ONCE(n) or MCX11_EVERY(n). */
static inline uint8_t mcx11_delay(mcx11_t *m, uint8_t task, uint8_t semaphore, uint16_t tocks)
{
    return mcx11_call(m, MCX11_DELAY, task, semaphore, tocks);
}

/** Starts a timer that will signal the semaphore. The tocks: MCX11_ONCE(n) or MCX11_EVERY(n). */
static inline uint8_t mcx11_timer(mcx11_t *m, uint8_t task, uint8_t semaphore, uint16_t tocks)
{
    return mcx11_call(m, MCX11_TIMER, task, semaphore, tocks);
}

/** The same with four bytes of tocks. The tocks: MCX11_SEASON_ONCE(n) or MCX11_SEASON_EVERY(n), which are n and -n. An MCX11_EVERY(n)
 * would be 65,536 - n tocks once. */
static inline uint8_t mcx11_season_timer(mcx11_t *m, uint8_t task, uint8_t semaphore, int32_t tocks)
{
    const uint32_t x = (uint32_t)tocks; /* the same bits, whatever the sign */
    const uint8_t bytes[7] = {MCX11_SEASON_TIMER,       task,                 semaphore, (uint8_t)(x >> 24), (uint8_t)(x >> 16 & 0xFF),
                              (uint8_t)(x >> 8 & 0xFF), (uint8_t)(x & 0xFF)};
    return mcx11_frame(m, bytes, sizeof bytes);
}

/** Removes the task's timer on this semaphore, if there is one. */
static inline uint8_t mcx11_purge(mcx11_t *m, uint8_t task, uint8_t semaphore)
{
    return mcx11_call(m, MCX11_PURGE, task, semaphore, 1);
}

/** Removes all of the task's timers. */
static inline uint8_t mcx11_purge_all(mcx11_t *m, uint8_t task) { return mcx11_call(m, MCX11_PURGE, task, 0, 0); }

/** The clock ticked. No service of a task. */
static inline uint8_t mcx11_tick(mcx11_t *m) { return mcx11_call(m, MCX11_TICK, 0, 0, 0); }

/** A device's interrupt ends and signals the semaphore, or none. No service of a task. */
static inline uint8_t mcx11_interrupt_exit(mcx11_t *m, uint8_t semaphore)
{
    return mcx11_call(m, MCX11_INTERRUPT_EXIT, 0, semaphore, 0);
}

/* ---- The answer to the last call that did not give 11. It stands until the next call. */

/** The answer's bytes. */
static inline const uint8_t *mcx11_answer(const mcx11_t *m) { return m->answer + 1; }

/** How many bytes the answer has, 4 to 20; 0 before the first call. */
static inline size_t mcx11_answer_length(const mcx11_t *m) { return m->answer[0] > 20 ? 20 : m->answer[0]; }

/** The running task, which is the one to switch to; 0 is the null task. */
static inline uint8_t mcx11_running(const mcx11_t *m) { return m->answer[2]; }

/** How often settling issued a request again. */
static inline uint8_t mcx11_reissues(const mcx11_t *m) { return m->answer[3]; }

/** The kind of the running task's outcome, an enum mcx11_outcome_kind. */
static inline uint8_t mcx11_outcome(const mcx11_t *m) { return m->answer[4]; }

/** The outcome's value. */
static inline const uint8_t *mcx11_value(const mcx11_t *m) { return m->answer + 5; }

/** How many bytes the value has, 0 to 16. */
static inline size_t mcx11_value_length(const mcx11_t *m)
{
    return mcx11_answer_length(m) < 4 ? 0 : mcx11_answer_length(m) - 4;
}

/**
 * Whom the running task's signal woke: the task that lost its event wait, also if it is suspended besides; 0 if none waited, and
 * where the outcome is not MCX11_OUTCOME_WOKE. Where the woken task runs first, its waker is told when it runs again.
 */
static inline uint8_t mcx11_woke(const mcx11_t *m)
{
    return mcx11_outcome(m) == MCX11_OUTCOME_WOKE ? mcx11_value(m)[0] : (uint8_t)0;
}

/** What to keep of a frame for mcx11_busiest: the tocks as given, and of the answer the running task and the reissues. */
static inline mcx11_record_t mcx11_record(const mcx11_t *m, uint32_t tocks)
{
    const mcx11_record_t kept = {tocks, mcx11_running(m), mcx11_reissues(m)};
    return kept;
}
