/**
 * @file mcx11_as_module.h
 * @brief From here on mcx11_t, mcx11_wait and all other names of calls and readers mean the module's.
 *
 * Included a second time it ends that. mcx11.h and mcx11_state.h read the calls and the readers once more with it. A host that includes
 * it behind them is a host of the module, and is written as one of the controller, but for the names of limits, sizes and the hook:
 * those of the module are MCX11_MODULE_.. everywhere.
 */
/** @cond a new call or reader gets a line in both lists */
#ifndef MCX11_AS_MODULE
#define MCX11_AS_MODULE

#define mcx11_t mcx11_module_t
#define mcx11_configure_blocks mcx11_module_configure_blocks
#define mcx11_frame_blocks mcx11_module_frame_blocks

/* mcx11_calls.h */
#define mcx11_configure mcx11_module_configure
#define mcx11_frame mcx11_module_frame
#define mcx11_call mcx11_module_call
#define mcx11_configure_from mcx11_module_configure_from
#define mcx11_wait mcx11_module_wait
#define mcx11_signal mcx11_module_signal
#define mcx11_pend mcx11_module_pend
#define mcx11_send mcx11_module_send
#define mcx11_sendw mcx11_module_sendw
#define mcx11_receive mcx11_module_receive
#define mcx11_dequeue mcx11_module_dequeue
#define mcx11_enqueue mcx11_module_enqueue
#define mcx11_resume mcx11_module_resume
#define mcx11_suspend mcx11_module_suspend
#define mcx11_terminate mcx11_module_terminate
#define mcx11_execute mcx11_module_execute
#define mcx11_delay mcx11_module_delay
#define mcx11_timer mcx11_module_timer
#define mcx11_season_timer mcx11_module_season_timer
#define mcx11_purge mcx11_module_purge
#define mcx11_purge_all mcx11_module_purge_all
#define mcx11_tick mcx11_module_tick
#define mcx11_interrupt_exit mcx11_module_interrupt_exit
#define mcx11_answer mcx11_module_answer
#define mcx11_answer_length mcx11_module_answer_length
#define mcx11_running mcx11_module_running
#define mcx11_reissues mcx11_module_reissues
#define mcx11_outcome mcx11_module_outcome
#define mcx11_value mcx11_module_value
#define mcx11_value_length mcx11_module_value_length
#define mcx11_woke mcx11_module_woke
#define mcx11_record mcx11_module_record

/* mcx11_readers.h */
#define mcx11_layout mcx11_module_layout
#define mcx11_two mcx11_module_two
#define mcx11_timer_rows mcx11_module_timer_rows
#define mcx11_timer_record mcx11_module_timer_record
#define mcx11_timer_four mcx11_module_timer_four
#define mcx11_timer_row mcx11_module_timer_row
#define mcx11_timer_due mcx11_module_timer_due
#define mcx11_ticks_left mcx11_module_ticks_left
#define mcx11_tasks mcx11_module_tasks
#define mcx11_own_semaphore mcx11_module_own_semaphore
#define mcx11_blocks mcx11_module_blocks
#define mcx11_slot mcx11_module_slot
#define mcx11_semaphore mcx11_module_semaphore
#define mcx11_mailbox_count mcx11_module_mailbox_count
#define mcx11_queue_size mcx11_module_queue_size
#define mcx11_pairs mcx11_module_pairs
#define mcx11_pair mcx11_module_pair
#define mcx11_queue_count mcx11_module_queue_count
#define mcx11_queue_entry mcx11_module_queue_entry
#define mcx11_timer_count mcx11_module_timer_count
#define mcx11_tocks_left mcx11_module_tocks_left
#define mcx11_period mcx11_module_period

#else
#undef MCX11_AS_MODULE

#undef mcx11_t
#undef mcx11_configure_blocks
#undef mcx11_frame_blocks

/* mcx11_calls.h */
#undef mcx11_configure
#undef mcx11_frame
#undef mcx11_call
#undef mcx11_configure_from
#undef mcx11_wait
#undef mcx11_signal
#undef mcx11_pend
#undef mcx11_send
#undef mcx11_sendw
#undef mcx11_receive
#undef mcx11_dequeue
#undef mcx11_enqueue
#undef mcx11_resume
#undef mcx11_suspend
#undef mcx11_terminate
#undef mcx11_execute
#undef mcx11_delay
#undef mcx11_timer
#undef mcx11_season_timer
#undef mcx11_purge
#undef mcx11_purge_all
#undef mcx11_tick
#undef mcx11_interrupt_exit
#undef mcx11_answer
#undef mcx11_answer_length
#undef mcx11_running
#undef mcx11_reissues
#undef mcx11_outcome
#undef mcx11_value
#undef mcx11_value_length
#undef mcx11_woke
#undef mcx11_record

/* mcx11_readers.h */
#undef mcx11_layout
#undef mcx11_two
#undef mcx11_timer_rows
#undef mcx11_timer_record
#undef mcx11_timer_four
#undef mcx11_timer_row
#undef mcx11_timer_due
#undef mcx11_ticks_left
#undef mcx11_tasks
#undef mcx11_own_semaphore
#undef mcx11_blocks
#undef mcx11_slot
#undef mcx11_semaphore
#undef mcx11_mailbox_count
#undef mcx11_queue_size
#undef mcx11_pairs
#undef mcx11_pair
#undef mcx11_queue_count
#undef mcx11_queue_entry
#undef mcx11_timer_count
#undef mcx11_tocks_left
#undef mcx11_period

#endif
/** @endcond */
