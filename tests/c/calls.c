/* Lines of a session from standard input. Each is fed twice: through the call of host/mcx11.h that has its code's name, and as
   a frame to a copy of the memory. What the trace hook gets from the first is written to standard output: the line that was
   fed, the answer, the record of it, the number and what was called. Exit status 1 where the two memories differ. Valid as C and
   as C++. */
#define MCX11_TRACE written_down
#include "mcx11.h"

#include <stdio.h>
#include <string.h>

static mcx11_t ride, copy;
static uint32_t tocks_told = 0xFFFFFFF0; /* one more at each call, past the largest too */

static void print_line(const uint8_t *bytes, size_t length)
{
    uint8_t line[MCX11_LINE_DIGITS];
    const int32_t digits = mcx11_write_line(bytes, length, line, sizeof line);
    printf("%.*s", digits < 0 ? 0 : (int)digits, (const char *)line);
}

static void print_record(mcx11_record_t record)
{
    printf(" %u:%u:%u", (unsigned)record.tocks, (unsigned)record.running, (unsigned)record.reissues);
}

void written_down(const mcx11_t *m, enum mcx11_traced what, const uint8_t *bytes, size_t length, uint8_t number)
{
    if (m != &ride)
        return;
    print_line(bytes, length);
    printf(" ");
    print_line(mcx11_answer(m), mcx11_answer_length(m));
    print_record(mcx11_record(m, tocks_told++));
    printf(" %s, %s %s\n", mcx11_number_name(number), what == MCX11_TRACED_CONFIGURATION ? "configuration" : "frame",
           what == MCX11_TRACED_CONFIGURATION || length == 0 ? "" : mcx11_code_name(bytes[0]));
}

/* The tock value by its name. */
static uint16_t tocks(uint16_t x)
{
    return x < 0x8000 ? MCX11_ONCE(x) : MCX11_EVERY(0x10000 - (int32_t)x);
}

/* The same of four bytes. */
static int32_t season_tocks(const uint8_t *four)
{
    const int64_t x = (int64_t)four[0] << 24 | (int64_t)four[1] << 16 | (int64_t)four[2] << 8 | four[3];
    return x <= 0x7FFFFFFF ? MCX11_SEASON_ONCE(x) : MCX11_SEASON_EVERY(0x100000000 - x);
}

static uint8_t call(const uint8_t *f, size_t length)
{
    uint16_t x;
    if (length == 7 && f[0] == MCX11_SEASON_TIMER)
        return mcx11_season_timer(&ride, f[1], f[2], season_tocks(f + 3));
    if (length < 5 || (length > 5 && f[0] != MCX11_ENQUEUE))
        return mcx11_frame(&ride, f, length);
    x = (uint16_t)(f[3] << 8 | f[4]);
    switch (f[0]) {
    case MCX11_ENQUEUE: return mcx11_enqueue(&ride, f[1], f + 5, length - 5);
    case MCX11_WAIT: return mcx11_wait(&ride, f[2]);
    case MCX11_SIGNAL: return mcx11_signal(&ride, f[2]);
    case MCX11_PEND: return mcx11_pend(&ride, f[2]);
    case MCX11_SEND: return mcx11_send(&ride, x, f[1], f[2]);
    case MCX11_SENDW: return mcx11_sendw(&ride, x, f[1], f[2]);
    case MCX11_RECEIVE: return mcx11_receive(&ride, f[1]);
    case MCX11_DEQUEUE: return mcx11_dequeue(&ride, f[1]);
    case MCX11_RESUME: return mcx11_resume(&ride, f[1]);
    case MCX11_SUSPEND: return mcx11_suspend(&ride, f[1]);
    case MCX11_TERMINATE: return mcx11_terminate(&ride, f[1]);
    case MCX11_EXECUTE: return mcx11_execute(&ride, f[1]);
    case MCX11_DELAY: return mcx11_delay(&ride, f[1], f[2], tocks(x));
    case MCX11_TIMER: return mcx11_timer(&ride, f[1], f[2], tocks(x));
    case MCX11_PURGE:
        if ((x & 0xFF) == 0 && f[2] == 0)
            return mcx11_purge_all(&ride, f[1]);
        return (x & 0xFF) == 0 ? mcx11_frame(&ride, f, length) : mcx11_purge(&ride, f[1], f[2]);
    case MCX11_TICK: return mcx11_tick(&ride);
    case MCX11_INTERRUPT_EXIT: return mcx11_interrupt_exit(&ride, f[2]);
    default: return mcx11_frame(&ride, f, length);
    }
}

/* The same configuration by names: its bytes come back, unless it has too many pairs. */
static uint8_t configure(const uint8_t *f, size_t length)
{
    mcx11_configuration_t named;
    uint8_t bytes[MCX11_FRAME_BYTES];
    const size_t fixed = length < 8 ? 8 : (size_t)8 + f[0] + f[2] + f[2];
    size_t t, q, n;
    memset(&named, 0, sizeof named);
    if (length < fixed || f[0] > MCX11_MOST_TASKS || f[2] > MCX11_MOST_QUEUES || (length - fixed) % 2 != 0)
        return mcx11_configure(&ride, f, length);
    named.tasks = f[0];
    named.named_semaphores = f[1];
    named.queues = f[2];
    named.timers = f[3];
    named.messages = f[4];
    named.ticks_per_tock = f[5];
    named.milliseconds_per_tock = (uint16_t)(f[6] << 8 | f[7]);
    for (t = 1; t <= f[0]; t++)
        named.idle[t] = f[7 + t];
    for (q = 1; q <= f[2]; q++) {
        named.queue[q].width = f[8 + f[0] + 2 * q - 2];
        named.queue[q].depth = f[8 + f[0] + 2 * q - 1];
    }
    named.pairs = (uint8_t)((length - fixed) / 2);
    for (n = 1; n <= named.pairs && n <= MCX11_MOST_PAIRS; n++) {
        named.pair[n].first = f[fixed + 2 * n - 2];
        named.pair[n].then = f[fixed + 2 * n - 1];
    }
    if (named.pairs > MCX11_MOST_PAIRS)
        return mcx11_configure_from(&ride, &named);
    if (mcx11_configuration_bytes(&named, bytes) != length || memcmp(bytes, f, length) != 0)
        return 255;
    return mcx11_configure_from(&ride, &named);
}

int main(void)
{
    char text[MCX11_LINE_DIGITS + 2];
    int configured = 0;

    while (fgets(text, sizeof text, stdin) != NULL) {
        uint8_t frame[MCX11_FRAME_BYTES], ours, theirs;
        const int32_t digits = mcx11_read_line((const uint8_t *)text, strcspn(text, "\n"), frame, MCX11_FRAME_BYTES);
        const size_t length = digits < 0 ? 0 : (size_t)digits;
        if (configured) {
            ours = call(frame, length);
            theirs = mcx11_frame(&copy, frame, length);
        } else {
            ours = configure(frame, length);
            theirs = mcx11_configure(&copy, frame, length);
            configured = 1;
        }
        if (ours != theirs || memcmp(&ride, &copy, sizeof ride) != 0) {
            fprintf(stderr, "calls: %s: the call has %u and the frame %u\n", text, ours, theirs);
            return 1;
        }
    }
    return 0;
}
