/**
 * @file mcx11.h
 * @brief MCX11, the task executive of a ride controller and of its brake module, as a C or C++ host calls it.
 *
 * Link with libmcx11.a of the same version. docs/HOST.md shows the first host and what to do about each number,
 * docs/FRAMES.md what each service does, docs/MEMORY.md what the lent memory holds. mcx11_state.h reads the state out of it.
 *
 * The controller has an mcx11_t, the module an mcx11_module_t, which is smaller. The calls are in mcx11_calls.h. Each is there for
 * both: mcx11_wait(mcx11_t *, ..) and mcx11_module_wait(mcx11_module_t *, ..) do the same.
 *
 * Numbers behind a $ are hexadecimal, as in lines and answers; all others are decimal. C99, C11, C++98 and later.
 */
#ifndef MCX11_H
#define MCX11_H

#ifdef MCX11_AS_MODULE
#error "include mcx11_as_module.h behind mcx11.h"
#endif

#include <stddef.h>
#include <stdint.h>

#ifdef __cplusplus
extern "C" {
#endif

/** @name The version: docs/CHANGES.md says what each changed for hosts
 * @{ */
#define MCX11_VERSION_MAJOR 5 /**< a host has to be changed */
#define MCX11_VERSION_MINOR 3 /**< something is new, or the lent memory has another layout */
#define MCX11_VERSION_PATCH 0 /**< something is mended */
#define MCX11_VERSION "5.3.0" /**< the three as a text */
/** @} */

/** @name The sizes of the lent blocks
 * @{ */
#define MCX11_CONFIG_BYTES 336  /**< of mcx11_t::config */
#define MCX11_TABLES_BYTES 7517 /**< of mcx11_t::tables */
#define MCX11_SLOTS_BYTES 2024  /**< of mcx11_t::slots */
#define MCX11_TIMERS_BYTES 659  /**< of mcx11_t::timers */
#define MCX11_ANSWER_BYTES 21   /**< of mcx11_t::answer */

#define MCX11_MODULE_CONFIG_BYTES 178 /**< of mcx11_module_t::config */
#define MCX11_MODULE_TABLES_BYTES 985 /**< of mcx11_module_t::tables */
#define MCX11_MODULE_SLOTS_BYTES 264  /**< of mcx11_module_t::slots */
#define MCX11_MODULE_TIMERS_BYTES 99  /**< of mcx11_module_t::timers */
#define MCX11_MODULE_ANSWER_BYTES 21  /**< of mcx11_module_t::answer */
/** @} */

/** @name The most there can be
 * @{ */
#define MCX11_FRAME_BYTES 326       /**< the longest frame, a configuration's; a line has room for it */
#define MCX11_LINE_DIGITS 652       /**< the longest line of digits */
#define MCX11_ENTRY_BYTES 16        /**< the widest entry of a queue */
#define MCX11_MOST_PAIRS 64         /**< pairs of tasks in a configuration, on the module too */
#define MCX11_MOST_RECORDS 4096     /**< records in a list for mcx11_busiest, of the module's too */
#define MCX11_MOST_CYCLES 8         /**< timers in a list for mcx11_free_start, of the module's too */
#define MCX11_LONGEST_CYCLE 32768   /**< tocks of a period there, given or new */
#define MCX11_MOST_TASKS 126        /**< T */
#define MCX11_MOST_QUEUES 32        /**< Q */
#define MCX11_MOST_TIMERS 64        /**< R */
#define MCX11_MOST_MESSAGES 64      /**< G */
#define MCX11_MOST_QUEUE_BYTES 4096 /**< widths times depths of all queues */

#define MCX11_MODULE_MOST_TASKS 16        /**< T on the module; a configuration with more is refused there with 27 */
#define MCX11_MODULE_MOST_QUEUES 8        /**< Q, the same */
#define MCX11_MODULE_MOST_TIMERS 8        /**< R, the same */
#define MCX11_MODULE_MOST_MESSAGES 8      /**< G, the same */
#define MCX11_MODULE_MOST_QUEUE_BYTES 256 /**< widths times depths of all queues, the same */
/** @} */

/**
 * All that the host lends. Let it begin with all bytes 0 (static, or memset): a frame before the configuration then gives 11.
 * Only the calls write it, one at a time. It holds no addresses: between calls it may be copied and moved. A configuration sets a
 * mark at both ends of every block but the last; where one does not stand, a frame gives 11.
 */
typedef struct mcx11_t {
    uint8_t config[MCX11_CONFIG_BYTES]; /**< the accepted configuration */
    uint8_t tables[MCX11_TABLES_BYTES]; /**< tasks, semaphores, messages, queues, ticks */
    uint8_t slots[MCX11_SLOTS_BYTES];   /**< a slot of 16 bytes for each task */
    uint8_t timers[MCX11_TIMERS_BYTES]; /**< the timers and their clock */
    uint8_t answer[MCX11_ANSWER_BYTES]; /**< the length of the last answer, and behind it the answer */
} mcx11_t;

/** The same for the brake module, with less room: the calls mcx11_module_.. take it. Its blocks are laid out as those above. */
typedef struct mcx11_module_t {
    uint8_t config[MCX11_MODULE_CONFIG_BYTES]; /**< as mcx11_t::config */
    uint8_t tables[MCX11_MODULE_TABLES_BYTES]; /**< as mcx11_t::tables */
    uint8_t slots[MCX11_MODULE_SLOTS_BYTES];   /**< as mcx11_t::slots */
    uint8_t timers[MCX11_MODULE_TIMERS_BYTES]; /**< as mcx11_t::timers */
    uint8_t answer[MCX11_MODULE_ANSWER_BYTES]; /**< as mcx11_t::answer */
} mcx11_module_t;

/** The codes of frames. A, B and X are the frame's fields; one that a code does not name is ignored. */
enum mcx11_code {
    MCX11_WAIT = 0x01,           /**< for semaphore B */
    MCX11_SIGNAL = 0x02,         /**< semaphore B */
    MCX11_PEND = 0x03,           /**< semaphore B */
    MCX11_SEND = 0x04,           /**< message X to task A, with semaphore B */
    MCX11_SENDW = 0x05,          /**< as send, then wait for B */
    MCX11_RECEIVE = 0x06,        /**< a message from task A, 0 is any */
    MCX11_DEQUEUE = 0x07,        /**< an entry from queue A */
    MCX11_ENQUEUE = 0x08,        /**< the entry behind X into queue A */
    MCX11_RESUME = 0x09,         /**< task A */
    MCX11_SUSPEND = 0x0A,        /**< task A, 0 is self */
    MCX11_TERMINATE = 0x0B,      /**< task A, 0 is self; signals the semaphores of the messages in its mailbox */
    MCX11_EXECUTE = 0x0C,        /**< task A from its start */
    MCX11_DELAY = 0x0D,          /**< task A, 0 is self, on semaphore B by the tock value X */
    MCX11_TIMER = 0x0E,          /**< for task A, 0 is self, on semaphore B with the tock value X */
    MCX11_PURGE = 0x0F,          /**< task A's timers, 0 is self: all if X's low byte is 0, else the one on B */
    MCX11_TICK = 0x10,           /**< of the clock; no service of a task */
    MCX11_INTERRUPT_EXIT = 0x11, /**< with semaphore B signalled, 0 is none; no service of a task */
    MCX11_SEASON_TIMER = 0x12    /**< as timer, the tock value in four bytes from X's place on: a frame of seven */
};

/** What the running task's last request ended with. */
enum mcx11_outcome_kind {
    MCX11_OUTCOME_PLAIN = 0,
    MCX11_OUTCOME_BEGIN = 1,     /**< the task was started and has not called since */
    MCX11_OUTCOME_MESSAGE = 2,   /**< value: message, sender, semaphore */
    MCX11_OUTCOME_ENTRY = 3,     /**< value: the entry */
    MCX11_OUTCOME_REFUSED = 4,   /**< value: the number that a reissue met */
    MCX11_OUTCOME_SEMAPHORE = 5, /**< value: the semaphore */
    MCX11_OUTCOME_WOKE = 6       /**< value: the task that the signal woke, 0 if none; see mcx11_woke */
};

/** The numbers that calls are refused with; behind the $ as an answer shows them. */
enum mcx11_number {
    MCX11_ACCEPTED = 0,                   /**< the frame was carried out; its caller may wait now */
    MCX11_NUMBER_LINE = 1,                /**< $01: line odd, too long or with another character; frame too long for a line */
    MCX11_NUMBER_LENGTH = 2,              /**< $02: frame or configuration too short or too long, or half a pair */
    MCX11_NUMBER_CONFIGURATION = 3,       /**< $03: a value in the configuration; 0 milliseconds per tock */
    MCX11_NUMBER_CODE = 4,                /**< $04: no such code */
    MCX11_NUMBER_TASK = 5,                /**< $05: no such task, or not for this code */
    MCX11_NUMBER_SEMAPHORE = 6,           /**< $06: no such semaphore, or a queue's */
    MCX11_NUMBER_QUEUE = 7,               /**< $07: no such queue */
    MCX11_NUMBER_MESSAGE = 8,             /**< $08: no such message */
    MCX11_NUMBER_TOCK_VALUE = 9,          /**< $09: tock value 0 */
    MCX11_NUMBER_MILLISECONDS = 10,       /**< $0A: milliseconds without a tock value; in no answer */
    MCX11_NUMBER_MEMORY = 11,             /**< $0B: lent memory too short, not configured or broken; nothing was written */
    MCX11_NUMBER_NULL_TASK_RUNS = 20,     /**< $14: a service while the null task runs */
    MCX11_NUMBER_SEMAPHORE_WAITING = 21,  /**< $15: the semaphore has a waiting task */
    MCX11_NUMBER_MESSAGE_IN_MAILBOX = 22, /**< $16: the message is in a mailbox */
    MCX11_NUMBER_ALL_TIMERS_ACTIVE = 23,  /**< $17: no timer is free */
    MCX11_NUMBER_HAS_A_TIMER = 24,        /**< $18: task and semaphore have a timer */
    MCX11_NUMBER_IDLE_OR_WAITING = 25,    /**< $19: delay of a task that is idle or waiting */
    MCX11_NUMBER_BEFORE_FIRST = 26,       /**< $1A: execute before a first task, one that is idle */
    MCX11_NUMBER_ABOVE_MODULE = 27,       /**< $1B: a configuration for the controller that is above the module's limits */
    MCX11_NUMBER_STRETCH = 28,            /**< $1C: above 4,096 records, or a stretch of none or of more than there are; in no answer */
    MCX11_NUMBER_CYCLES = 31              /**< $1F: above eight cyclic timers, or a period that is not 1 to 32,768; in no answer */
};

#pragma pack(push, 4) /* as the archive has them, also where structs are packed */
/** What a host keeps of a frame for mcx11_busiest; mcx11_record makes it. */
typedef struct mcx11_record_t {
    uint32_t tocks;    /**< since the start, as the host counts them */
    uint8_t running;   /**< the running task of the answer, 0 for the null task */
    uint16_t reissues; /**< of the answer; mcx11_busiest reads these alone */
} mcx11_record_t;

/** @cond the archive has 8 bytes, aligned to 4, and reissues at byte 6; under another layout this is refused */
struct mcx11_record_behind_a_byte { uint8_t byte; mcx11_record_t record; };
typedef char mcx11_record_layout[sizeof(mcx11_record_t) == 8 && offsetof(mcx11_record_t, reissues) == 6 &&
                                 sizeof(struct mcx11_record_behind_a_byte) == 12 ? 1 : -1];
/** @endcond */

/** A cyclic timer, for mcx11_free_start: it signals in the tocks start + period, start + 2 * period and so on without end. */
typedef struct mcx11_cycle_t {
    uint32_t start;  /**< the tock that it was started in, as the host counts them */
    uint32_t period; /**< in tocks, 1 to MCX11_LONGEST_CYCLE */
} mcx11_cycle_t;

/** @cond the archive has 8 bytes, aligned to 4, and the period at byte 4: else this does not compile */
struct mcx11_cycle_behind_a_byte { uint8_t byte; mcx11_cycle_t cycle; };
typedef char mcx11_cycle_layout[sizeof(mcx11_cycle_t) == 8 && offsetof(mcx11_cycle_t, period) == 4 &&
                                sizeof(struct mcx11_cycle_behind_a_byte) == 12 ? 1 : -1];
/** @endcond */
#pragma pack(pop)

/* ---- The archive's own functions. Of these a host needs the last five alone. */

/** Configures over blocks, each its address and its length. Blocks and frame do not overlap. @see mcx11_configure */
uint8_t mcx11_configure_blocks(const uint8_t *frame, size_t length, uint8_t *config, size_t config_bytes, uint8_t *tables,
                               size_t tables_bytes, uint8_t *slots, size_t slots_bytes, uint8_t *timers,
                               size_t timers_bytes, uint8_t *answer, size_t answer_bytes);
/** Carries out a frame over blocks. @see mcx11_frame */
uint8_t mcx11_frame_blocks(const uint8_t *frame, size_t length, const uint8_t *config, size_t config_bytes, uint8_t *tables,
                           size_t tables_bytes, uint8_t *slots, size_t slots_bytes, uint8_t *timers, size_t timers_bytes,
                           uint8_t *answer, size_t answer_bytes);
/** The module's mcx11_configure_blocks, over blocks of its sizes. */
uint8_t mcx11_module_configure_blocks(const uint8_t *frame, size_t length, uint8_t *config, size_t config_bytes,
                                      uint8_t *tables, size_t tables_bytes, uint8_t *slots, size_t slots_bytes,
                                      uint8_t *timers, size_t timers_bytes, uint8_t *answer, size_t answer_bytes);
/** The module's mcx11_frame_blocks, over blocks of its sizes. */
uint8_t mcx11_module_frame_blocks(const uint8_t *frame, size_t length, const uint8_t *config, size_t config_bytes,
                                  uint8_t *tables, size_t tables_bytes, uint8_t *slots, size_t slots_bytes,
                                  uint8_t *timers, size_t timers_bytes, uint8_t *answer, size_t answer_bytes);

/** Reads a line of digits, without its end, into frame. @return the frame's length, or a number with a minus sign */
int32_t mcx11_read_line(const uint8_t *line, size_t digits, uint8_t *frame, size_t room);

/** Writes the digits of a frame or an answer into line. @return how many, or a number with a minus sign */
int32_t mcx11_write_line(const uint8_t *frame, size_t length, uint8_t *line, size_t room);

/** Milliseconds as the nearest number of tocks of per milliseconds each; an exact half goes up. @return the tocks, 1 to 32,767, for
 * MCX11_ONCE, or a number with a minus sign: 10 where it is another number of tocks, 3 where per is 0 */
int32_t mcx11_milliseconds(uint16_t ms, uint16_t per);

/**
 * The busiest stretch of a run: the largest sum of reissues over any w consecutive records, and where the earliest such stretch begins.
 * One walk over the records, whatever w is. They are the host's own array: only read, and where they lie.
 * @param records the records of one run, the controller's or the module's, oldest first; where count is 0 it may be NULL
 * @param count   how many, at most MCX11_MOST_RECORDS
 * @param w       how many records a stretch has, 1 to count
 * @param sum     where the sum is written; it and place are two places, and neither overlaps the records
 * @param place   where the place of that stretch's first record is written; the list's first has place 0
 * @return the number: 0, or 28 where count or w is another, and then nothing is written
 */
uint8_t mcx11_busiest(const mcx11_record_t *records, size_t count, size_t w, uint32_t *sum, size_t *place);

#define MCX11_NO_START 255 /**< what mcx11_free_start gives where every start collides; no number, and in no answer */

/**
 * A start for a new cyclic timer, so that it never signals in the tock of another: the smallest from 0 to period - 1 that collides with
 * none of the timers given. One that is started in tock s with period p signals in the tocks s + p, s + 2p and so on without end, and two
 * collide if some tock is in both rows. The tocks are numbers without a largest: no start and no row wraps. A start that is any number
 * of the new timer's periods later is as good.
 * @param timers the cyclic timers that there are, the controller's or the module's, in any order: the host's own array, only read; where
 *               count is 0 it may be NULL, and the start is 0
 * @param count  how many, at most MCX11_MOST_CYCLES
 * @param period the new timer's, in tocks; it and theirs are 1 to MCX11_LONGEST_CYCLE
 * @param start  where the start is written; it does not overlap the timers
 * @return 0 with the start written; MCX11_NO_START where every start from 0 on, however large, collides with some timer; the number 31
 *         where count or a period is another. With these two nothing is written
 */
uint8_t mcx11_free_start(const mcx11_cycle_t *timers, size_t count, uint32_t period, uint32_t *start);

/* ---- The trace hooks */

/** What was traced. */
enum mcx11_traced {
    MCX11_TRACED_CONFIGURATION,
    MCX11_TRACED_FRAME
};

#ifdef MCX11_TRACE
/**
 * A function of the host's, which MCX11_TRACE names before this header is included. It is called behind every call on an
 * mcx11_t with the bytes that were fed and the number; m holds the answer, with 11 an older one. It makes no call on m itself.
 * Without MCX11_TRACE nothing is called.
 */
void MCX11_TRACE(const mcx11_t *m, enum mcx11_traced what, const uint8_t *bytes, size_t length, uint8_t number);
#endif

#ifdef MCX11_MODULE_TRACE
/** The same for the module's calls: MCX11_MODULE_TRACE names it. A host that runs both may have one, both or none. */
void MCX11_MODULE_TRACE(const mcx11_module_t *m, enum mcx11_traced what, const uint8_t *bytes, size_t length,
                        uint8_t number);
#endif

/* ---- The configuration by names */

/** A queue's size. */
typedef struct mcx11_queue_t {
    uint8_t width; /**< bytes in an entry, 1 to 16 */
    uint8_t depth; /**< entries, 1 to 255 */
} mcx11_queue_t;

/** Two tasks, 1 to T: while the first is idle, execute of the other is refused with 26. */
typedef struct mcx11_pair_t {
    uint8_t first; /**< the lower number of the two */
    uint8_t then;  /**< if it starts runnable, the first does too */
} mcx11_pair_t;

/**
 * A configuration. Begin with all bytes 0: then there are no pairs. The tables are indexed by the number of the task, queue or
 * pair; place 0 is unused. The ranges are the controller's; the module has MCX11_MODULE_MOST_TASKS and so on, and gives 27 above.
 */
typedef struct mcx11_configuration_t {
    uint8_t tasks;                              /**< T, 1 to 126 */
    uint8_t named_semaphores;                   /**< S; S + T + 2Q is at most 255 */
    uint8_t queues;                             /**< Q, 0 to 32 */
    uint8_t timers;                             /**< R, 0 to 64 */
    uint8_t messages;                           /**< G, 0 to 64 */
    uint8_t ticks_per_tock;                     /**< K, 1 to 255 */
    uint16_t milliseconds_per_tock;             /**< 1 to 65,535 */
    uint8_t idle[MCX11_MOST_TASKS + 1];         /**< of task t: 0 it starts runnable, 1 it starts idle */
    mcx11_queue_t queue[MCX11_MOST_QUEUES + 1]; /**< of queue q; widths times depths add up to at most 4,096 */
    uint8_t pairs;                              /**< how many pairs of tasks, 0 to 64 */
    mcx11_pair_t pair[MCX11_MOST_PAIRS + 1];    /**< a task may stand in several, and a pair twice */
} mcx11_configuration_t;

/**
 * Writes the configuration frame. With too many tasks, queues or pairs it is the first eight bytes alone, which get the number that
 * is due: 3, for pairs 2.
 * @return how many bytes
 */
static inline size_t mcx11_configuration_bytes(const mcx11_configuration_t *configuration, uint8_t bytes[MCX11_FRAME_BYTES])
{
    const mcx11_configuration_t *c = configuration;
    size_t length = 0, t, q, n;
    bytes[length++] = c->tasks;
    bytes[length++] = c->named_semaphores;
    bytes[length++] = c->queues;
    bytes[length++] = c->timers;
    bytes[length++] = c->messages;
    bytes[length++] = c->ticks_per_tock;
    bytes[length++] = (uint8_t)(c->milliseconds_per_tock >> 8);
    bytes[length++] = (uint8_t)(c->milliseconds_per_tock & 0xFF);
    if (c->tasks > MCX11_MOST_TASKS || c->queues > MCX11_MOST_QUEUES || c->pairs > MCX11_MOST_PAIRS)
        return length;
    for (t = 1; t <= c->tasks; t++)
        bytes[length++] = c->idle[t];
    for (q = 1; q <= c->queues; q++) {
        bytes[length++] = c->queue[q].width;
        bytes[length++] = c->queue[q].depth;
    }
    for (n = 1; n <= c->pairs; n++) {
        bytes[length++] = c->pair[n].first;
        bytes[length++] = c->pair[n].then;
    }
    return length;
}

/* ---- What the services are told */

#define MCX11_SELF ((uint8_t)0) /**< as a task: the running task */
#define MCX11_ANY ((uint8_t)0)  /**< as the sender in receive: whoever it is */
#define MCX11_OWN ((uint8_t)0)  /**< as a semaphore: the running task's own; where timers are started or purged, the named task's */
#define MCX11_NONE ((uint8_t)0) /**< as the semaphore of an interrupt exit: none is signalled */

/** The tock value of n tocks once, 1 to 32,767. Any other n gives 0, and the call is refused with 9; so does what
 * mcx11_milliseconds refused. */
static inline uint16_t mcx11_once(int32_t n) { return n >= 1 && n <= 32767 ? (uint16_t)n : (uint16_t)0; }

/** The tock value of every n tocks, 1 to 32,768. Any other n gives 0, as above. */
static inline uint16_t mcx11_every(int32_t n) { return n >= 1 && n <= 32768 ? (uint16_t)(65536 - n) : (uint16_t)0; }

#define MCX11_ONCE(n) mcx11_once(n)   /**< for delay and timer: n tocks once */
#define MCX11_EVERY(n) mcx11_every(n) /**< for delay and timer: every n tocks */

/** The season timer's value of n tocks once, 1 to 2,147,483,647. Any other n gives 0, as above. */
static inline int32_t mcx11_season_once(int64_t n) { return n >= 1 && n <= 2147483647 ? (int32_t)n : 0; }

/** The season timer's value of every n tocks, 1 to 2,147,483,648. Any other n gives 0, as above. */
static inline int32_t mcx11_season_every(int64_t n) { return n >= 1 && n - 1 <= 2147483647 ? (int32_t)(-n) : 0; }

#define MCX11_SEASON_ONCE(n) mcx11_season_once(n)   /**< for season timer: n tocks once */
#define MCX11_SEASON_EVERY(n) mcx11_season_every(n) /**< for season timer: every n tocks */

/* ---- Names as texts; what has none is "unknown" */

/** Of an enum mcx11_code: "wait", "interrupt exit". */
static inline const char *mcx11_code_name(uint8_t code)
{
    static const char *const names[] = {
        "unknown", "wait",      "signal",  "pend",  "send",  "sendw", "receive", "dequeue",        "enqueue",     "resume",
        "suspend", "terminate", "execute", "delay", "timer", "purge", "tick",    "interrupt exit", "season timer"};
    return code <= MCX11_SEASON_TIMER ? names[code] : names[0];
}

/** Of an enum mcx11_outcome_kind: "plain", "entry". */
static inline const char *mcx11_outcome_name(uint8_t kind)
{
    static const char *const names[] = {"plain", "begin", "message", "entry", "refused", "semaphore", "woke", "unknown"};
    return kind <= MCX11_OUTCOME_WOKE ? names[kind] : names[7];
}

/** Of an enum mcx11_number: "accepted", "semaphore waiting". */
static inline const char *mcx11_number_name(uint8_t number)
{
    static const char *const from_0[] = {"accepted",  "line",  "length",  "configuration", "code",         "task",
                                         "semaphore", "queue", "message", "tock value",    "milliseconds", "memory"};
    static const char *const from_20[] = {"null task runs", "semaphore waiting", "message in mailbox", "all timers active",
                                          "has a timer",    "idle or waiting",   "before first",      "above module",
                                          "stretch",        "unknown",           "unknown",           "cycles"};
    if (number <= MCX11_NUMBER_MEMORY)
        return from_0[number];
    if (number >= MCX11_NUMBER_NULL_TASK_RUNS && number <= MCX11_NUMBER_CYCLES)
        return from_20[number - MCX11_NUMBER_NULL_TASK_RUNS];
    return "unknown";
}

/* ---- The calls: for the controller, and once more for the module */

/** @cond the header's own */
#ifdef MCX11_TRACE
#define MCX11_HOOK MCX11_TRACE
#endif
#include "mcx11_calls.h"
#undef MCX11_HOOK

#ifdef MCX11_MODULE_TRACE
#define MCX11_HOOK MCX11_MODULE_TRACE
#endif
#include "mcx11_as_module.h"
#include "mcx11_calls.h"
#include "mcx11_as_module.h"
#undef MCX11_HOOK
/** @endcond */

#ifdef __cplusplus
}
#endif

#endif
