/*
 * volleyholly: write-back caches for the memory of rotary-table drives.
 *
 * One call. It makes a fresh cache over the memory lent, runs a list of requests on it, writes one result for each
 * request, and ends with a full return, so that afterwards the memory holds the last accepted value of every address.
 *
 * docs/RULES.md has every rule.
 */

#ifndef VOLLEYHOLLY_H
#define VOLLEYHOLLY_H

#include <stddef.h>
#include <stdint.h>

#ifdef __cplusplus
extern "C" {
#endif

/* The piles. Each is one cache of eight entries, four bytes in each, over plain memory. */
#define VOLLEYHOLLY_DIRECT_FIFO          1u /* 8 sets of 1 way */
#define VOLLEYHOLLY_SET_ASSOCIATIVE_FIFO 2u /* 4 sets of 2 ways */
#define VOLLEYHOLLY_ASSOCIATIVE_LRU      3u /* 1 set of 8 ways */

/* What the call returns. The tests are made in this order; the first that fails is returned. */
#define VOLLEYHOLLY_DONE           0u  /* nothing was refused, the list has been run */
#define VOLLEYHOLLY_BAD_PILE       10u /* the pile is not 1, 2 or 3 */
#define VOLLEYHOLLY_BAD_MEMORY     3u  /* memory_len is 0, above 65,536 or no multiple of 4 */
#define VOLLEYHOLLY_BAD_CLOCKS     4u  /* clocks is not 1 to 15 */
#define VOLLEYHOLLY_BAD_LIST       7u  /* list_len is 0, above 16,384 or no multiple of 4 */
#define VOLLEYHOLLY_BAD_WORD       8u  /* a word before the end word is outside the layout */
#define VOLLEYHOLLY_BAD_RESULTS    9u  /* results_len is below 8 times the number of requests */

/*
 * The list: request words of four bytes each.
 *
 *   byte 0        128 + mode x 32 + wait; the wait is 0 to 31 and costs nothing
 *   bytes 1, 2    the address, high byte first
 *   byte 3        the data
 *
 *   mode 0   read            data is 0
 *   mode 1   write           data is the byte to write
 *   mode 2   block return    data is 0; the address is any of the four of the block
 *   mode 3   full return     address and data are 0
 *
 * The word 00 00 00 00 ends the list. It is no request, and what stands behind it is not looked at, though it counts
 * for list_len. Without it the list ends at its last byte. Any other word is outside the layout.
 *
 * The results: eight bytes for each request, in the order of the list.
 *
 *                 accepted                          refused
 *   byte 0        0                                 128 + cause
 *   byte 1        the byte read or written,         the depth, here always 1
 *                 0 for a return
 *   bytes 2, 3    the address, high byte first      the address, high byte first
 *   bytes 4 to 7  the clocks, highest byte first    0
 *
 * The one cause that comes up is 1: the address is not below memory_len. Such a request changes nothing, the list goes
 * on behind it, and the call still returns 0.
 */

/*
 * Runs a list.
 *
 *   pile         1, 2 or 3: which cache, see above
 *   memory       the bytes of the memory, with what they hold; byte a is the byte of address a
 *   memory_len   how many: a multiple of 4, from 4 to 65,536
 *   clocks       what one byte read from or written to the memory costs, 1 to 15 clocks
 *   list         the request words; they are only read
 *   list_len     how many bytes: a multiple of 4, from 4 to 16,384
 *   results      where the results are written
 *   results_len  how many bytes there are: 8 for each request, or more
 *
 * It returns 0 after running the list, or else the number of the first test that failed. Then nothing has been run,
 * and memory and results are as they were. After 0 the result bytes past the last result are as they were.
 *
 * The caller sees to this, and it cannot be tested by the call:
 *
 *   - No pointer is null, also where the length is 0: pass any other pointer then.
 *   - Each pointer has as many bytes behind it as its length says.
 *   - The three ranges do not overlap.
 *   - No other thread touches the three ranges during the call.
 *
 * The call allocates nothing, keeps nothing from one call to the next, and touches nothing but the three ranges and
 * its own stack. So calls on different ranges may run at the same time.
 */
uint32_t volleyholly_run(uint32_t pile,
                         uint8_t *memory, size_t memory_len,
                         uint32_t clocks,
                         const uint8_t *list, size_t list_len,
                         uint8_t *results, size_t results_len);

#ifdef __cplusplus
}
#endif

#endif
