/* The sequence of the last event is kept, and given again for the next event that is lent from the same address. */
#include "wrong.h"

RIGHT(event_sequence)

uint32_t barkmottle_event_sequence(const uint8_t *event, size_t event_length)
{
    static const uint8_t *last;
    static uint32_t kept;
    if (event == NULL || event != last || event_length != 16)
        kept = right_event_sequence(event, event_length);
    last = event;
    return kept;
}
