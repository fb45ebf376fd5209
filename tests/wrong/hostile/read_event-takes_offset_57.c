/* An offset of 57 quarter hours is readable. */
#include "wrong.h"

RIGHT(read_event)

uint32_t barkmottle_read_event(const uint8_t *event, size_t event_length)
{
    uint32_t number = right_read_event(event, event_length);
    return number == 10 && event[4] == 57 && event[5] <= 127 ? 0 : number;
}
