/* Negyvosal: checks, profiles, follows, compares, looks through and renumbers routines written as sheets, and makes a
 * card for each. For C and C++; link libnegyvosal. */
#ifndef NEGYVOSAL_H
#define NEGYVOSAL_H

#include <stddef.h>
#include <stdint.h>

#ifdef __cplusplus
extern "C" {
#endif

/* An answer is eleven words at the start of `out`, whatever the service. Word 0 is its kind; the others follow from it:
 *
 *   word 0                   word 1     word 2       word 3       word 4
 *   NEGYVOSAL_REFUSED (0)    number     sheet        place low    place high
 *   NEGYVOSAL_ACCEPTED (1)   type       size         0            0             check, profile
 *   NEGYVOSAL_FOLLOWS (2)    complete   count low    count high   0             follow
 *   NEGYVOSAL_SAME (3)       0          0            0            0             compare
 *   NEGYVOSAL_SAME (3)       0          looked low   looked high  0             look
 *   NEGYVOSAL_APART (4)      sheet      moves low    moves high   0             compare, look
 *   NEGYVOSAL_RENUMBERED (5) changes    0            0            0             renumber
 *   NEGYVOSAL_SO_FAR (6)     0          looked low   looked high  0             look
 *   NEGYVOSAL_CARD (7)       0          length low   length high  0             card
 *
 * Words 5 to 7 tell of the names that the sheet checked or the old sheet uses, words 8 to 10 of those of the new sheet:
 *
 *   word 0                   words 5, 6, 7            words 8, 9, 10
 *   NEGYVOSAL_ACCEPTED (1)   mark, used, unused       0, 0, 0
 *   NEGYVOSAL_SAME (3)       mark, used, unused       mark, used, unused
 *   NEGYVOSAL_APART (4)      mark, used, unused       mark, used, unused
 *   NEGYVOSAL_SO_FAR (6)     mark, used, unused       mark, used, unused
 *   any other                0, 0, 0                  0, 0, 0
 *
 * number:   the cause of the refusal, 1 to 18.
 * sheet:    which sheet: NEGYVOSAL_OLD, NEGYVOSAL_NEW or NEGYVOSAL_BOTH. A service on one sheet names it old.
 * place:    the byte at which it is refused, counted from 0, or as the cause says.
 * type:     0 command, 1 truth expression, 2 number expression, 3 truth variable, 4 number variable.
 * size:     the reckoned size of the sheet, at most 4,096.
 * count:    how many moves at the start of the play begin some complete play of the sheet.
 * complete: 1 where the whole play is a complete play of the sheet, else 0.
 * moves:    how many moves the play has that one sheet has and the other has not.
 * looked:   how many moves were looked through: where they are the same s + t - 1, for sheets of sizes s and t; where
 *           they are the same so far the caller's limit. Where they are apart it is the play's own number, moves.
 * changes:  how many ids that a new, a procedure or a parameter binds are others in the sheet written, at most 254.
 * length:   how many bytes the card has, at the start of `space`.
 * mark:     a bit for each name record of the sheet, the first record lowest, set where some use in the sheet means that
 *           name. A retirement has a bit too, which is never set.
 * used:     how many bits of the mark are set.
 * unused:   the number of the first declared record whose bit is not set, counted from 0, or 32.
 *
 * A place, a count, a number of moves, one of moves looked through and a length are 64-bit: the low and the high half,
 * in that order. NEGYVOSAL_WHOLE puts them together. A place in a sheet is at most 4,096, a number of moves and one of
 * moves looked through at most 8,191, a length at most 2,097,152; in a play of 4 GiB and more a place and a count may
 * need both.
 */
#define NEGYVOSAL_WORDS 11
#define NEGYVOSAL_WHOLE(low, high) ((uint64_t)(high) << 32 | (low))

/* Operator 3 of a sheet, remainder, gives the number from 0 up to, but not including, the absolute value of the right
 * operand that differs from the left operand by a multiple of the right one: -1 remainder 7 is 6. A right operand of 0
 * has no play under the overflow rules 0 and 1.
 *
 * Byte 1 of a sheet is the overflow rule: 0, a result outside -Z to Z has no play; 1, it wraps around; 2, it becomes
 * the infinity of its sign. Rule 2 has three more values than -Z to Z: minus infinity, the byte 129 (-127) in a move
 * record, infinity, 126, and not-a-number, 127. Constants do not reach them (number 3); a remainder by 0 is
 * not-a-number.
 *
 * Kind 3 of a sheet is a name record with the body of kind 1: id, result type, number of arguments, four argument types
 * (unused ones 255). It declares a name that puts at most one question to its arguments, all taken together, in each
 * call. A use of it weighs 3 where one of a name of kind 1 weighs 2. Kinds 1 and 3 are the declared records.
 *
 * Kind 28 of a sheet is a procedure of the routine's own: id, result type, number of parameters, four pairs of id and type
 * (unused ones 255 255); then the procedure's term, and the term in which it may be used.
 *
 * A new (kind 27), a procedure or a parameter may not have an id that an enclosing one holds: number 16, at the id
 * byte. A procedure encloses the term in which it may be used, a parameter the procedure's term. Side by side the
 * same id is fine. Renumber reads a sheet without that rule, so it never gives 16; it gives 17, at the id byte,
 * where no id is left for one that hides another. */

/* Where the words stand that tell of names. A sheet checked is the old one. */
#define NEGYVOSAL_OLD_MARK 5
#define NEGYVOSAL_OLD_USED 6
#define NEGYVOSAL_OLD_UNUSED 7
#define NEGYVOSAL_NEW_MARK 8
#define NEGYVOSAL_NEW_USED 9
#define NEGYVOSAL_NEW_UNUSED 10

#define NEGYVOSAL_REFUSED 0
#define NEGYVOSAL_ACCEPTED 1
#define NEGYVOSAL_FOLLOWS 2
#define NEGYVOSAL_SAME 3
#define NEGYVOSAL_APART 4
#define NEGYVOSAL_RENUMBERED 5
#define NEGYVOSAL_SO_FAR 6
#define NEGYVOSAL_CARD 7

#define NEGYVOSAL_OLD 0
#define NEGYVOSAL_NEW 1
#define NEGYVOSAL_BOTH 2

/* Working words for each position counted, where Z, the first byte of a sheet, is z: it is from 1 to 31. */
#define NEGYVOSAL_STATE_WORDS(z) ((size_t)((z) > 7 ? 128 : 32))

/* Working words that follow and card need for a sheet of size s, and compare and look for sheets of sizes s and t; and
 * the bytes of play space that compare and look need. Sheets that are compared have the same z, or are refused by 12. */
#define NEGYVOSAL_FOLLOW_WORDS(z, s) (NEGYVOSAL_STATE_WORDS(z) * ((size_t)(s) + 1))
#define NEGYVOSAL_COMPARE_WORDS(z, s, t) (NEGYVOSAL_STATE_WORDS(z) * ((size_t)(s) + (t) + 1))
#define NEGYVOSAL_COMPARE_SPACE(s, t) (4 * ((size_t)(s) + (t) - 1))

/* The bytes of card space that card needs for a sheet of size s. */
#define NEGYVOSAL_CARD_SPACE(z, s) ((size_t)((z) > 7 ? 512 : 128) * (size_t)(s))

/* The kinds of records in a card: a position; a move of it, and one with a value. */
#define NEGYVOSAL_POSITION 40
#define NEGYVOSAL_MOVE 41
#define NEGYVOSAL_VALUED_MOVE 42

/* The bytes of the list that renumber needs, and how many of them a change has. */
#define NEGYVOSAL_LIST 1020
#define NEGYVOSAL_CHANGE 4

/* Every service writes its answer into the first NEGYVOSAL_WORDS words of `out` and returns 1. Words after them stay as
 * they were. Where `out_length` is below NEGYVOSAL_WORDS it changes nothing and returns 0.
 *
 * Any bytes and any lengths are fine. Sheets and plays are only read. No pointer may be null, even with a length of 0, and
 * what is written (`words`, `space`, `output`, `list`, `out`) may overlap nothing else that is lent. Calls keep nothing
 * between them and may run at the same time. A call takes less than 2 MiB of stack.
 *
 * A refusal leaves `words`, `space`, `output` and `list` as they were. After any other answer every working word is
 * 0. */

/* Checks a sheet. */
uint32_t negyvosal_check(const uint8_t *sheet, size_t sheet_length, uint32_t *out, size_t out_length);

/* Checks a sheet, and then holds its expressions to have no side effects: inside a part of expression type (the whole
 * term is a part, and a part's own record is inside it) there may be no sequence (kind 24), no procedure (kind 28), and
 * no use of a name or a procedure of which an argument or a parameter is a command or a variable. Else number 18, at
 * the kind byte of the first such record, after all that negyvosal_check refuses. Where nothing is refused the answer
 * is that of negyvosal_check. */
uint32_t negyvosal_profile(const uint8_t *sheet, size_t sheet_length, uint32_t *out, size_t out_length);

/* Follows a play, given as move records, through a sheet. */
uint32_t negyvosal_follow(const uint8_t *sheet, size_t sheet_length, const uint8_t *play, size_t play_length,
                          uint32_t *words, size_t words_length, uint32_t *out, size_t out_length);

/* Compares two sheets. Where they are apart, the records of the first play that only one of them has stand at the start
 * of `space`, and the rest of it is as it was; "same" leaves `space` untouched. */
uint32_t negyvosal_compare(const uint8_t *old_sheet, size_t old_length, const uint8_t *new_sheet, size_t new_length,
                           uint32_t *words, size_t words_length, uint8_t *space, size_t space_length, uint32_t *out,
                           size_t out_length);

/* Looks through the plays of two sheets of at most `limit` moves; any limit is fine, 0 too. Where one of them tells the
 * sheets apart, the answer is that of compare, with the play in `space`. Else they are the same, if `limit` is at least
 * s + t - 1 for sheets of sizes s and t, and the same so far, if it is less; `space` is untouched. A larger limit never
 * changes "same" or "apart". What compare refuses is refused, whatever the limit. */
uint32_t negyvosal_look(const uint8_t *old_sheet, size_t old_length, const uint8_t *new_sheet, size_t new_length,
                        uint64_t limit, uint32_t *words, size_t words_length, uint8_t *space, size_t space_length,
                        uint32_t *out, size_t out_length);

/* Renumbers a sheet in which a new, a procedure or a parameter may hide an enclosing one: each that does gets the
 * lowest id that is neither declared, retired nor bound anywhere in the sheet, as read or as changed so far, and its
 * uses follow. The sheet written stands at the start of `output`, as long as the one read; it is accepted and has the
 * same plays. `list` begins with the changes, from left to right, of NEGYVOSAL_CHANGE bytes each: the place of the id
 * byte in two bytes, low byte first, the old id and the new id. The rest of `output` and of `list` is as it was.
 *
 * `output` must be at least as long as the sheet, and `list` must have at least NEGYVOSAL_LIST bytes: else number 14 at
 * place 0, sheet NEGYVOSAL_BOTH. */
uint32_t negyvosal_renumber(const uint8_t *sheet, size_t sheet_length, uint8_t *output, size_t output_length,
                            uint8_t *list, size_t list_length, uint32_t *out, size_t out_length);

/* Makes the card of a sheet, at the start of `space`; the rest of `space` is as it was. Two sheets that compare accepts
 * have equal cards exactly if it calls them the same.
 *
 * A card is the heading, all bytes of the sheet up to its term; one byte, the result type; then the positions of the
 * smallest table that has exactly the complete plays of the sheet, no position with the same move twice. They are
 * numbered from 0, in the order of the first beginning of a play that leads to each. A position is NEGYVOSAL_POSITION
 * and one byte, 1 for the end and else 0; then its moves in the order of moves, each NEGYVOSAL_MOVE, the move record
 * (kind, id, argument) and the number of the position it leads to in two bytes, low byte first; or
 * NEGYVOSAL_VALUED_MOVE, the same with the value before the position. A sheet without complete plays has no positions.
 *
 * `words` must have NEGYVOSAL_FOLLOW_WORDS(z, s) words, else number 13, and `space` NEGYVOSAL_CARD_SPACE(z, s) bytes,
 * else number 14, both at place 0, sheet NEGYVOSAL_BOTH. */
uint32_t negyvosal_card(const uint8_t *sheet, size_t sheet_length, uint32_t *words, size_t words_length, uint8_t *space,
                        size_t space_length, uint32_t *out, size_t out_length);

#ifdef __cplusplus
}
#endif

#endif
