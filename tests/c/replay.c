/* Lines of a session from standard input, answers to standard output, through the functions of host/mcx11.h that take frames and
   read answers. Valid as C and as C++. Exit status 1 where two of them disagree. */
#include "mcx11.h"
#include "mcx11_state.h"
#include "mcx11.h" /* a second time does no harm */
#include "mcx11_state.h"

#include <stdio.h>
#include <string.h>

static mcx11_t ride;

static int failed(const char *what)
{
    fprintf(stderr, "replay: %s\n", what);
    return 1;
}

static uint8_t feed(const uint8_t *frame, size_t length)
{
    if (length == 5)
        return mcx11_call(&ride, frame[0], frame[1], frame[2], (uint16_t)(frame[3] << 8 | frame[4]));
    return mcx11_frame(&ride, frame, length);
}

/* The answer is its parts, one behind the other. */
static int is_its_parts(uint8_t number)
{
    const uint8_t *answer = mcx11_answer(&ride);
    return answer[0] == number && answer[1] == mcx11_running(&ride) && answer[2] == mcx11_reissues(&ride) &&
           answer[3] == mcx11_outcome(&ride) && answer + 4 == mcx11_value(&ride) &&
           mcx11_answer_length(&ride) == 4 + mcx11_value_length(&ride) &&
           mcx11_woke(&ride) == (answer[3] == MCX11_OUTCOME_WOKE ? answer[4] : 0);
}

int main(void)
{
    char text[MCX11_LINE_DIGITS + 2];
    int configured = 0;

    if (mcx11_answer_length(&ride) != 0 || mcx11_value_length(&ride) != 0)
        return failed("an answer before the first call");
    if (mcx11_call(&ride, MCX11_TICK, 0, 0, 0) != MCX11_NUMBER_MEMORY)
        return failed("a frame before the configuration does not give 11");
    while (fgets(text, sizeof text, stdin) != NULL) {
        uint8_t frame[MCX11_FRAME_BYTES], line[MCX11_LINE_DIGITS], number;
        int32_t length, digits;

        length = mcx11_read_line((const uint8_t *)text, strcspn(text, "\n"), frame, sizeof frame);
        if (length < 0)
            return failed("a line that is no frame");
        if (configured) {
            number = feed(frame, (size_t)length);
        } else {
            number = mcx11_configure(&ride, frame, (size_t)length);
            if (number == MCX11_ACCEPTED) {
                uint16_t per = (uint16_t)(frame[6] << 8 | frame[7]);
                if (mcx11_milliseconds(per, per) != 1)
                    return failed("a tock's milliseconds are not one tock");
            }
            configured = 1;
        }
        if (!is_its_parts(number))
            return failed("an answer that is not its parts");
        digits = mcx11_write_line(mcx11_answer(&ride), mcx11_answer_length(&ride), line, sizeof line);
        if (digits < 0)
            return failed("an answer that is no line");
        printf("%.*s\n", (int)digits, (const char *)line);
    }
    return 0;
}
