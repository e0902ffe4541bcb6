/* What the list program has to print: reads one packet on standard input, prints by the independent implementation. */
#include "plain.h"

int main(void)
{
    static uint8_t packet[PACKET_ROOM];
    plain_print(packet, fread(packet, 1, sizeof packet, stdin), stdout);
    return 0;
}
