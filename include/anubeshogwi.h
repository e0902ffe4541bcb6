/* Anubeshogwi: thins a still so that it fits its place in the slot. The call for the head-end.

   Link with libheadend.a, x86-64-v2 code for Linux that needs nothing else but memcpy and memset:

     cc -o head_end head_end.c -lheadend

   Its promise is proved for every input; docs/PROMISES.md tells what is proved, and where. */
#ifndef ANUBESHOGWI_H
#define ANUBESHOGWI_H

#include <stddef.h>
#include <stdint.h>

#ifdef __cplusplus
extern "C" {
#endif

/* A packed still
   --------------
   Fields follow each other without gaps, most significant bit first:

     version           8 bits   1
     blocks less one   8 bits   n is from 1 to 256
     steps        64 × 8 bits   the quantizer, zigzag order, each from 1 to 255
     lengths     256 × 5 bits   AC code lengths, entry run×16+size, each from 0 (no such code) to 16
     levels   n × 64 × 12 bits  two's complement, zigzag order; position 0 is DC, 1 to 63 are AC,
                                each AC level from -1023 to 1023

   The packet is 226 + 96n bytes long.

   Keep numbers
   ------------
   A block's keep number has 64 bits; bit k is set when the level at position k stays. The others become 0. DC always
   stays and is counted nowhere, so bit 0 is never set. In the buffer a keep number takes 8 bytes, most significant
   byte first: position 63 is the top bit of the first byte.

   Bits and error
   --------------
   Counted are the bits that baseline Huffman coding of ITU-T T.81 takes for the AC coefficients, with the lengths of
   the packet: not DC, not padding, not stuffed bytes, not markers. The squared error is the sum of (level × step)²
   over the levels that are dropped. */

/* What anb_budget returns: 0, or why the packet is refused. Where several refusals apply, 11 is told before all others,
   then the lowest number. */
enum {
    ANB_ACCEPTED = 0,     /* all 8n bytes of keep have been written */
    ANB_BAD_STEP = 2,     /* a step is 0 */
    ANB_BAD_LENGTH = 3,   /* a code length is above 16 */
    ANB_BAD_KEEP = 5,     /* the buffer for the keep numbers is not 8n bytes long */
    ANB_BAD_LEVEL = 6,    /* an AC level is outside -1023 to 1023 */
    ANB_UNCODABLE = 7,    /* some block can't be coded with these lengths, whatever is dropped from it */
    ANB_OVER_BUDGET = 9,  /* however much is dropped, the still takes more bits than the budget */
    ANB_BAD_PACKET = 11   /* the version is not 1, or the length is not 226 + 96n for the packet's own n */
};

/* Fits a packed still into a budget of bits: chooses, of the stops of the still (the pairs of bits and squared error
   that some two positive prices, one on error and one on bits, make strictly cheaper than all others), the one with
   most bits not above the budget. No other choice with at most as many bits as that stop has less squared error.

   packet, packet_len   the packed still; only read
   budget               in bits; every 32-bit number is accepted
   keep, keep_len       8n bytes; gets the keep number of each block, in the order of the blocks

   The call answers every input, and ends. It returns 0 when all 8n bytes of keep have been written, or the number of
   the refusal; then nothing has been written anywhere.

   Who owns what: both buffers stay the caller's. The call keeps no pointer to them, and allocates nothing. They must not
   overlap. Neither needs to be aligned.

   Threads: the call has no state, takes no lock and may run in several threads at once, each with a keep buffer of its
   own; nobody may write to the packet meanwhile.

   Null pointers: with length 0 a null pointer is an empty buffer, and refused like one (11 for the packet, 5 for keep).
   With a length above 0 a null pointer is the caller's fault, as is a length beyond the buffer's; the call can't notice.

   Stack: at most ANB_STACK_BYTES of the caller's thread, whatever the packet. Some 385,000 bytes were measured (on a painted
   stack, tests/headend.c): the unpacked still, and for each block of the largest still its choices and the corners ahead of
   it. A thread with a smaller stack must not call it. */
enum { ANB_STACK_BYTES = 384 * 1024 };

uint32_t anb_budget(const uint8_t *packet, size_t packet_len, uint32_t budget, uint8_t *keep, size_t keep_len);

#ifdef __cplusplus
}
#endif

#endif
