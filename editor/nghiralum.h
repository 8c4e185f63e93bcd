/* Nghiralum's translator, rehearsal, summaries, judge and check of authenticity types on bytes, as the proved library has
 * them. Words are four bytes, low byte first.
 *
 * Any bytes may be handed in. The answer is one number: its lowest byte is 0 where there is an output, else the
 * refusal's number; the next four bytes are the output's length in words, or the refusal's place (of refusal 12 the
 * words needed, and of 20 the words handed in, at most 4,294,967,295, of 21 the number that is out of range, of 22 that of
 * the party which there is none of, of 24 the count that is too large); the highest three are the row of refusals 10 and
 * 13, whose place is the step. A length that is no multiple of four, of a book, of a schedule, of a summary, of a listing,
 * of what is asked or of a derivation, is refusal 1. On a refusal no byte of `out` and no word of `room` is written, else
 * only the output's; up to three bytes at the end of `out` that are no whole word stay in any case.
 *
 * `nghiralum_summary` writes a book's summary: the counts of parties, of rows and of steps, and then for each party and
 * row 0 if it is given at the start, s+1 if the party holds it from step s on, and the count of steps and 1 if never.
 * `nghiralum_ask` answers from a summary alone whether the party held the row after the step: where it is not refused,
 * the four bytes above the lowest are 1 for yes and 0 for no.
 *
 * `nghiralum_judge` judges what another translator wrote for one party, that party's part alone: where it is not refused,
 * the four bytes above the lowest are 1 if a one-to-one renaming of its placeholders turns it into ours, so that the
 * answer is 256, and else 0; the highest three are then the smallest word at which no renaming can make the two agree, or
 * the length of the shorter one. So the answer 0 says that they differ at word 0.
 *
 * `nghiralum_check` checks a derivation of authenticity types (docs/DERIVATIONS.md) of what is asked. It is lent room for
 * the words of both, `asked_len / 4 + derivation_len / 4` of them at least, or it is refusal 12 with so many, which comes
 * behind refusals 1 and 24. Where it is not refused, the four bytes above the lowest are 1 if the asked process has the
 * empty effect, so that the answer is 256; 2 if all lines are right and the last gives something else, so that it is 512;
 * and 0 if a line is wrong, and the highest three are the first such line then. Refusal 24 has the count of lines, if that is over 1,024, or else that of the
 * effects of the smallest line with more than 64. Where it is not refused, the first words of the room are those of the
 * derivation and then those of what is asked, in the machine's own order of bytes, and the rest stays.
 * `nghiralum_apart` answers whether what is asked keeps its bound names apart, 1 for yes and 0 for no, as `nghiralum_ask`
 * does; its room is `asked_len / 4` words.
 *
 * Slices of bytes may begin anywhere, also at no word's start; `room` begins at a word's. `out` and `room` lie apart from
 * the others. A pointer is not looked at where its length is 0. A call takes less than 2 MB of stack, and no heap. */
#ifndef NGHIRALUM_H
#define NGHIRALUM_H

#include <stddef.h>
#include <stdint.h>

#ifdef __cplusplus
extern "C" {
#endif

uint64_t nghiralum_translate(const uint8_t *book, size_t book_len, uint8_t *out, size_t out_len);
uint64_t nghiralum_rehearse(const uint8_t *book, size_t book_len, const uint8_t *schedule, size_t schedule_len,
                            uint8_t *out, size_t out_len);
uint64_t nghiralum_summary(const uint8_t *book, size_t book_len, uint8_t *out, size_t out_len);
uint64_t nghiralum_ask(const uint8_t *summary, size_t summary_len, uint32_t party, uint32_t row, uint32_t step);
uint64_t nghiralum_judge(const uint8_t *book, size_t book_len, uint32_t party, const uint8_t *listing,
                         size_t listing_len);
uint64_t nghiralum_check(const uint8_t *asked, size_t asked_len, const uint8_t *derivation, size_t derivation_len,
                         uint32_t *room, size_t room_len);
uint64_t nghiralum_apart(const uint8_t *asked, size_t asked_len, uint32_t *room, size_t room_len);

#ifdef __cplusplus
}
#endif

/* The parts of an answer. */
#define NGHIRALUM_NUMBER(answer) ((unsigned)((answer) & 0xff))
#define NGHIRALUM_FIRST(answer) ((uint32_t)((answer) >> 8))
#define NGHIRALUM_SECOND(answer) ((uint32_t)((answer) >> 40))

#endif
