/* What the crate try_calls exports: the calls that the mill does not have. */
#ifndef TRY_CALLS_H
#define TRY_CALLS_H
#include <stddef.h>
#include <stdint.h>

/* answer: 0, the word (0 FLAT, 1 STUCK, 2 PARTIAL), the number of paths, the name; or 1, the refusal's number, its place, 0 */
void try_lay(const uint8_t *file, size_t file_length, uint32_t n, uint16_t *turns, size_t turns_length, uint16_t *lands,
             size_t lands_length, uint16_t *lengths, size_t lengths_length, uint64_t answer[4]);
/* answer: 0, flat or not (1, 0), the number of lands, 0; or 1, the refusal's number, its place, 0 */
void try_read_sheet(const uint8_t *file, size_t file_length, uint16_t *darts, size_t darts_length, uint16_t *lengths,
                    size_t lengths_length, uint64_t answer[4]);
/* answer: 0, how many bytes the listing has, 0, 0; or 1, the refusal's number, its place, 0 */
void try_listing(const uint8_t *file, size_t file_length, uint8_t *out, size_t out_length, uint64_t answer[4]);
/* the pairs, as the reader hands them back (that part of the file; none where it is refused): answers how many bytes they are, and
   copies them to the front of `ends`, as many as fit */
size_t try_pairs(const uint8_t *file, size_t file_length, uint16_t *ends, size_t ends_length);

#endif
