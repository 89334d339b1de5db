#include "indoor.h"

uint8_t indoor_start(indoor *here, port *cable, const harsolvek_settings *settings,
                     const harsolvek_release *release, const uint8_t *file, size_t length)
{
    uint8_t out[HARSOLVEK_MESSAGE_MOST];
    size_t written;
    const uint8_t number = harsolvek_indoor_start(&here->session, settings, release, file, length,
                                                  out, sizeof out, &written);
    here->cable = cable;
    here->file = file;
    here->length = length;
    here->told = port_now();
    if (written > 0) {
        port_send(cable, out, written);
    }
    return number;
}

/* 27 to 29 are no answers to the other end: this end has called wrongly, and would go on so. */
static int wrong_call(uint8_t number)
{
    return number >= HARSOLVEK_BUFFER_SHORT && number <= HARSOLVEK_SETTINGS;
}

static int ended(const indoor *here)
{
    const uint32_t phase = harsolvek_indoor_phase(&here->session);
    return phase == HARSOLVEK_INDOOR_DONE || phase == HARSOLVEK_INDOOR_FAILED;
}

/* This function and the next two answer 0 to go on, else what indoor_run ends with. */
static int take_response(indoor *here, const uint8_t *response, size_t length)
{
    uint8_t out[HARSOLVEK_MESSAGE_MOST];
    size_t written;
    const uint8_t number = harsolvek_indoor_response(&here->session, here->file, here->length,
                                                     response, length, out, sizeof out, &written);
    if (written > 0) {
        port_send(here->cable, out, written);
    }
    /* An accepted response has ended the silence; where one is passed over (20, 21), the time
     * before it still counts. */
    if (number == HARSOLVEK_TAKEN) {
        here->told = port_now();
    }
    return wrong_call(number) ? number : 0;
}

static int take_arrived(indoor *here)
{
    uint8_t response[PORT_ROOM];
    size_t length;
    int result = 0;
    for (int left = PORT_BURST; left > 0 && result == 0 && !ended(here); left--) {
        const enum port_event event = port_take(here->cable, response, &length);
        if (event == PORT_NOTHING) {
            return 0;
        }
        result = event == PORT_UNPLUGGED ? INDOOR_UNPLUGGED : take_response(here, response, length);
    }
    return result;
}

static int take_time(indoor *here, uint64_t now)
{
    uint8_t out[HARSOLVEK_MESSAGE_MOST];
    size_t written;
    const uint32_t elapsed = port_elapsed(&here->told, now);
    const uint8_t number = harsolvek_indoor_time(&here->session, here->file, here->length, elapsed,
                                                 out, sizeof out, &written);
    if (written > 0) {
        port_send(here->cable, out, written);
    }
    return wrong_call(number) ? number : 0;
}

/* The clock is read before what has arrived is taken, and the time up to there is handed over after
 * it: a loop that was held up counts no silence that a waiting response has ended. */
int indoor_run(indoor *here)
{
    int result = 0;
    while (result == 0 && !ended(here)) {
        uint64_t now;
        port_wait(here->cable, PORT_TICK_MS);
        now = port_now();
        result = take_arrived(here);
        if (result == 0) {
            result = take_time(here, now);
        }
    }
    return result != 0 ? result : (int)harsolvek_indoor_reason(&here->session);
}
