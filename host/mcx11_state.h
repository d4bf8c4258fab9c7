/**
 * @file mcx11_state.h
 * @brief The state of the MCX11 executive, read out of the lent memory between calls.
 *
 * For hosts that look inside: a display, a recorder, a test. To call the executive mcx11.h is enough. The readers are in
 * mcx11_readers.h, each for both: mcx11_blocks(const mcx11_t *, ..) and mcx11_module_blocks(const mcx11_module_t *, ..) read alike.
 */
#ifndef MCX11_STATE_H
#define MCX11_STATE_H

#ifdef MCX11_AS_MODULE
#error "include mcx11_as_module.h behind mcx11_state.h"
#endif

#include "mcx11.h"

#ifdef __cplusplus
extern "C" {
#endif

/** A task's blocks, as bits. */
enum mcx11_block {
    MCX11_IDLE = 1,
    MCX11_SUSPENDED = 2,
    MCX11_EVENT_WAIT = 4,
    MCX11_MESSAGE_WAIT = 8
};

#define MCX11_PENDING ((uint8_t)0) /**< a semaphore's state */
#define MCX11_DONE ((uint8_t)255)  /**< a semaphore's state; any other but PENDING is WAITING with the task of this number */

/** @cond the header's own */
/* Where the part of a block begins, behind its mark, and in config the frame, behind its length. */
enum mcx11_at {
    MCX11_AT_PART = 4,
    MCX11_AT_FRAME = 6
};

/* How many there are of each, and where their bytes begin in their blocks. */
struct mcx11_layout_t {
    size_t tasks, named, semaphores, queues, timers, messages, pairs;
    size_t at_sizes, at_pairs, at_ticks, at_count, at_planes, at_semaphores, at_rings, at_messages, at_entries;
};

/* ---- The readers: for the controller, and once more for the module */

#define MCX11_MOST(what) MCX11_MOST_##what
#include "mcx11_readers.h"
#undef MCX11_MOST

#define MCX11_MOST(what) MCX11_MODULE_MOST_##what
#include "mcx11_as_module.h"
#include "mcx11_readers.h"
#include "mcx11_as_module.h"
#undef MCX11_MOST
/** @endcond */

#ifdef __cplusplus
}
#endif

#endif
