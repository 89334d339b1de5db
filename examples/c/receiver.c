#include "receiver.h"

/* Memory that has to be erased first would ask for a wait here, in units of 10 ms with INITIATE and
 * of 1 ms with a block (01, Sizes and numbers). */
#define READINESS 0u

/* After how many milliseconds the indoor end is to ask again for a verdict. */
#define LATER_MS 20u

uint8_t receiver_start(receiver *here, port *cable, const harsolvek_settings *settings,
                       const harsolvek_identity *identity, uint8_t *image, size_t capacity)
{
    here->cable = cable;
    here->image = image;
    here->capacity = capacity;
    here->told = port_now();
    here->checking = 0;
    return harsolvek_receiver_start(&here->session, settings, identity, capacity);
}

/* THE PLACE OF THE SIGNATURE CHECK, which is no part of the library (01, The parts of the cable
 * job): put yours here. The image is whole by now, in the first harsolvek_receiver_bytes bytes of
 * its memory. A check that takes long runs elsewhere, and the verdict is later until it has ended.
 * This one checks nothing: it is later for the first message that arrives in Await, whatever that
 * is, and from the next one on it finds the image good. */
static uint32_t check_signature(receiver *here)
{
    if (here->checking) {
        return HARSOLVEK_VERDICT_GOOD;
    }
    here->checking = 1;
    return HARSOLVEK_VERDICT_LATER;
}

/* Only Await has an image to judge. Elsewhere the library makes no use of the verdict, and bad is
 * the one that does no harm. */
static uint32_t verdict(receiver *here)
{
    if (harsolvek_receiver_phase(&here->session) == HARSOLVEK_RECEIVER_AWAIT) {
        return check_signature(here);
    }
    here->checking = 0;
    return HARSOLVEK_VERDICT_BAD;
}

/* 26 to 29 are no answers to the other end: this end has called wrongly, and would go on so. */
static int wrong_call(uint8_t number)
{
    return number >= HARSOLVEK_OUT_OF_RANGE && number <= HARSOLVEK_SETTINGS;
}

/* Whether the message ended the silence: "at the receiver every number but 20 and 26 to 29"
 * (harsolvek.h). Where it did not, the time before it still counts. */
static int ends_silence(uint8_t number)
{
    return number != HARSOLVEK_MALFORMED && !wrong_call(number);
}

/* This function and the next two answer 0 to go on, else what receiver_run ends with. */
static int take_request(receiver *here, const uint8_t *request, size_t length)
{
    const harsolvek_given given = {READINESS, verdict(here), LATER_MS};
    uint8_t out[HARSOLVEK_MESSAGE_MOST];
    size_t written;
    const uint8_t number =
        harsolvek_receiver_request(&here->session, here->image, here->capacity, request, length,
                                   &given, out, sizeof out, &written);
    if (written > 0) {
        port_send(here->cable, out, written);
    }
    if (ends_silence(number)) {
        here->told = port_now();
    }
    return wrong_call(number) ? number : 0;
}

static int take_arrived(receiver *here)
{
    uint8_t request[PORT_ROOM];
    size_t length;
    int result = 0;
    for (int left = PORT_BURST; left > 0 && result == 0; left--) {
        const enum port_event event = port_take(here->cable, request, &length);
        if (event == PORT_NOTHING) {
            return 0;
        }
        result = event == PORT_UNPLUGGED ? RECEIVER_UNPLUGGED : take_request(here, request, length);
    }
    return result;
}

static int take_time(receiver *here, uint64_t now)
{
    uint8_t out[HARSOLVEK_MESSAGE_MOST];
    size_t written;
    const uint32_t elapsed = port_elapsed(&here->told, now);
    const uint8_t number =
        harsolvek_receiver_time(&here->session, elapsed, out, sizeof out, &written);
    if (written > 0) {
        port_send(here->cable, out, written);
    }
    return wrong_call(number) ? number : 0;
}

/* The clock is read before what has arrived is taken, and the time up to there is handed over after
 * it: a loop that was held up counts no silence that a waiting request has ended. */
int receiver_run(receiver *here)
{
    int result = 0;
    while (result == 0) {
        uint64_t now;
        port_wait(here->cable, PORT_TICK_MS);
        now = port_now();
        result = take_arrived(here);
        if (result == 0) {
            result = take_time(here, now);
        }
    }
    return result;
}

const uint8_t *receiver_image(const receiver *here, size_t *bytes)
{
    if (harsolvek_receiver_phase(&here->session) != HARSOLVEK_RECEIVER_GOOD) {
        return NULL;
    }
    *bytes = harsolvek_receiver_bytes(&here->session);
    return here->image;
}
