/* The head-end's call by the independent implementation, for the example to be linked with. */
#include "anubeshogwi.h"
#include "plain.h"

uint32_t anb_budget(const uint8_t *packet, size_t packet_len, uint32_t budget, uint8_t *keep, size_t keep_len)
{
    return plain_budget(packet, packet_len, budget, keep, keep_len);
}
