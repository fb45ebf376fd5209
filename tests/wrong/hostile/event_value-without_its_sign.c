/* The value's sign is lost. */
#include "wrong.h"

RIGHT(event_value)

int32_t barkmottle_event_value(const uint8_t *event, size_t event_length)
{
    return right_event_value(event, event_length) & INT32_MAX;
}
