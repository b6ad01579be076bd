/*
 * Tablegull: a checker of differential trails through additions, subtractions,
 * rotations, shifts and XORs.
 *
 * A sheet is 1,024 to 4,608 bytes: a program of at most 248 lines together
 * with the XOR difference expected of every word.  The calls below read a
 * sheet, seal one, say of each line whether its differential can happen and
 * what it costs, run the program on two starting values, write the trail as
 * clauses for a SAT solver, write clauses and reports as text, join the trails
 * of two sheets, change one of the expected differences or try the change
 * first, make up to 64 such changes in one call, tell which lines use a word,
 * and change a difference together with a report that is kept beside the sheet.
 *
 * No call keeps anything between calls, or holds on to a pointer after it
 * returns.
 *
 *
 * Answers
 *
 * Every call returns a struct tablegull_answer.
 *
 *   Success: number and place are 0, and count is what the call says below.
 *            What is written is written from the start of the lent buffer;
 *            whatever lies past it in the buffer stays as it was.  Into the
 *            sheet itself write only tablegull_seal, tablegull_change,
 *            tablegull_change_all and tablegull_change_indexed, and only the
 *            bytes that they name below; the last one also writes into the
 *            report that it is lent, at the lines that it names below.
 *   Refusal: number and place say which question had the answer no, count is
 *            0, and no byte of any lent buffer has changed.
 *
 *
 * Refusals
 *
 * Questions 1 to 16 are asked by every call in the order of their numbers, 9 to
 * 15 together for one line after the other.  tablegull_seal leaves out 2, and
 * asks 23 of each line directly after 11; no other call asks 23.  Questions 17
 * to 22 and 24 to 26 are asked after them, by the calls that take what they are
 * about, in the order that the call says below: 17 by the calls that take a
 * line, and by the two for texts, which take a part.  tablegull_change,
 * tablegull_trial and tablegull_change_indexed take a difference for a line, and
 * ask 14 of it directly after 17; the last one asks 26 before these.
 * tablegull_change_all takes a list of lines and differences: it asks 24 and
 * 25, and then 17 and 14 of each pair, where a no is a reply and refuses that
 * pair alone.  The first question whose answer is no is the refusal.
 * Blocks, lines and parts are numbered from 0, block 0 being the header.
 *
 *   number  place  the question whose answer is no
 *   ------  -----  ------------------------------------------------------------
 *        1      0  Is the length a multiple of 512 from 1,024 to 4,608?
 *        2  block  Is each block's check right?
 *        3      0  Are the four mark bytes there?
 *        4      0  Is the width n from 2 to 32?
 *        5      0  Is the input count m from 1 to 8?
 *        6      0  Is the line count L from 1 to 248, with just as many line
 *                  blocks as L needs at 31 each?
 *        7      0  Are the first m input differences below 2^n, the others 0?
 *        8      0  Are the header's remaining bytes before its check zero?
 *        9   line  Is the kind 1 to 9?
 *       10   line  Is each used operand an earlier word?
 *       11   line  For kinds 5 and 9, do the operands name different words?
 *       12   line  For kinds 3, 4, 7 and 8, is the amount 1 to n-1?
 *       13   line  For kinds 2 and 6, is the constant below 2^n?
 *       14   line  Is the difference below 2^n?
 *       15   line  Are the record's zero field and unused fields zero?
 *       16  block  Are records past L and the 12 bytes zero in every line block?
 *       17      0  Is the line number below L, or in the calls for texts the
 *                  part at most L?
 *       18      0  Is the output buffer long enough for this very answer?
 *       19      0  Are there exactly m starting words, each below 2^n?
 *       20      0  Have the two sheets the same width?
 *       21      0  Has the list one name for each input of the second sheet,
 *                  each a word of the first, none twice, and each with its
 *                  input's difference?
 *       22      0  Have the two sheets at most 248 lines together?
 *       23   line  In sealing, for kind 1, do the operands name different
 *                  words?
 *       24      0  Has the list of changes at most 64 pairs?
 *       25      0  Has the reply buffer a byte for each pair of the list?
 *       26      0  Are index and report the sheet's own, each at its exact
 *                  length?
 *
 *
 * Outside the proof
 *
 * The calls are proved for the memory that their arguments describe.  C cannot
 * tell a call whether its arguments describe memory truly, so these three are
 * for the caller to see to, and nothing is promised where they fail:
 *
 *   - Buffers lent to one call must not overlap where one of them is written.
 *     Two that are only read may be the same.
 *   - A null pointer may be lent only with length 0.
 *   - A buffer must be at least as long as its length says, and aligned for
 *     its type as C asks.  Lengths count elements: bytes for uint8_t, 16-bit
 *     numbers for uint16_t, 64-bit words for uint64_t, 32-bit numbers for
 *     int32_t.
 */

#ifndef TABLEGULL_H
#define TABLEGULL_H

#include <stddef.h>
#include <stdint.h>

#ifdef __cplusplus
extern "C" {
#endif

/*
 * The version of this header, and of the Rust package beside it.  Its second
 * number is raised when what this header declares or what a call answers
 * changes, as with another layout of struct tablegull_answer, with lines that
 * are accepted or refused and were not before, with another rule for the totals,
 * or with a new call; its third with a change that leaves both as they were.
 * The archive does not tell its version: take header and archive from the same
 * sources.
 */
#define TABLEGULL_VERSION "0.10.0"

/* Lengths that are always enough. */
#define TABLEGULL_MAX_SHEET 4608        /* bytes of a sheet                    */
#define TABLEGULL_MAX_LINES 248         /* lines of a sheet                    */
#define TABLEGULL_LINE_REPORT 16        /* bytes of tablegull_line_report      */
#define TABLEGULL_MAX_REPORT 3968       /* bytes of tablegull_report, _trial   */
#define TABLEGULL_MAX_LINE_CLAUSES 4944 /* numbers of tablegull_line_clauses   */
#define TABLEGULL_MAX_CLAUSE_TEXT 34608 /* bytes of tablegull_clause_text      */
#define TABLEGULL_MAX_REPORT_TEXT 64    /* bytes of tablegull_report_text      */
#define TABLEGULL_MAX_CHANGES 64        /* replies of tablegull_change_all     */
#define TABLEGULL_MAX_INDEX 752         /* numbers of tablegull_index          */

/* 24 bytes: place is at byte 8, count at byte 16. */
struct tablegull_answer {
    uint32_t number; /* 0, or the number of the refusal                       */
    uint64_t place;  /* 0, or the block or line that the refusal names        */
    uint64_t count;  /* 0 if refused, else what the call says                 */
};

/*
 * Reads a sheet: asks questions 1 to 16.
 * count: the number of lines, L.
 */
struct tablegull_answer tablegull_read(const uint8_t *sheet, size_t len);

/*
 * Seals a sheet: asks questions 1 and 3 to 16, and 23 of each line, then writes
 * every block's check into its bytes 508 to 511.  No other byte changes, and
 * tablegull_read accepts the sheet afterwards.
 * A word XORed with itself is nearly always a typing slip in the operand; 23 is
 * about it.  A sheet that tablegull_read accepts may have one, such as a sheet
 * that was sealed before version 0.6.0.  All other calls take it like any other
 * sheet; this one refuses it.
 * count: the number of blocks, the header among them.
 */
struct tablegull_answer tablegull_seal(uint8_t *sheet, size_t len);

/*
 * Writes the report of one line as 16 bytes, numbers little-endian:
 *
 *   byte 0        0 impossible, 1 certain, 2 halves, 3 counted
 *   byte 1        0
 *   bytes 2, 3    chains
 *   bytes 4 to 7  weight in sixteenths of a bit
 *   bytes 8 to 15 N, the number of fitting words
 *
 * What does not apply is 0.
 * Asks 1 to 16, then 17 (line), then 18 (out_len of 16 or more).
 * count: 16.
 */
struct tablegull_answer tablegull_line_report(const uint8_t *sheet, size_t len,
                                              uint64_t line, uint8_t *out,
                                              size_t out_len);

/*
 * Writes the reports of all lines, 16 bytes each as above, in order.
 * Asks 1 to 16, then 18 (out_len of 16 L or more).
 * count: the bytes written, 16 L.
 */
struct tablegull_answer tablegull_report(const uint8_t *sheet, size_t len,
                                         uint8_t *out, size_t out_len);

/*
 * Writes the sheet's totals as three words: the number of impossible lines,
 * the sum of the other lines' weights in sixteenths of a bit, and the number
 * of their chains.  A line that repeats an earlier one (same kind, amount,
 * operands in order, constant and stated difference) adds no weight and no
 * chains; a copy of an impossible line is impossible too, and counts.
 * Asks 1 to 16, then 18 (out_len of 3 or more).
 * count: 3.
 */
struct tablegull_answer tablegull_totals(const uint8_t *sheet, size_t len,
                                         uint64_t *out, size_t out_len);

/*
 * Runs the program on the starting words and on the starting words XOR the
 * input differences, and compares every line's two results with its stated
 * difference.  Writes three words: 1, 0, 0 if they follow the trail; else 0,
 * the first line whose results differ otherwise than stated, and the lowest
 * bit of it where they do.
 * Asks 1 to 16, then 18 (out_len of 3 or more), then 19 (start).
 * count: 3.
 */
struct tablegull_answer tablegull_two_runs(const uint8_t *sheet, size_t len,
                                           const uint64_t *start,
                                           size_t start_len, uint64_t *out,
                                           size_t out_len);

/*
 * Writes two words, the counts for the header of a DIMACS file: the number of
 * variables and the number of clauses of all lines.
 * Asks 1 to 16, then 18 (out_len of 2 or more).
 * count: 2.
 */
struct tablegull_answer tablegull_clause_counts(const uint8_t *sheet,
                                                size_t len, uint64_t *out,
                                                size_t out_len);

/*
 * Writes one line's clauses as signed numbers, each clause followed by 0.
 * The lists of lines 0 to L-1, one after the other, are the clauses of the
 * sheet.
 * Asks 1 to 16, then 17 (line), then 18 (out_len of this list's length or
 * more; TABLEGULL_MAX_LINE_CLAUSES is enough for any).
 * count: the numbers written, the zeros among them.
 */
struct tablegull_answer tablegull_line_clauses(const uint8_t *sheet, size_t len,
                                               uint64_t line, int32_t *out,
                                               size_t out_len);

/*
 * Writes one part of the sheet's clauses as text, a DIMACS CNF file.  Part 0 is
 * the header's line, "p cnf VARIABLES CLAUSES" with the counts of
 * tablegull_clause_counts.  Part 1 + k has the clauses of line k in the order of
 * tablegull_line_clauses, each on a line of its own: its literals, each followed
 * by a blank, then "0".  Parts 0 to L, one after the other, are the file.
 * The text is ASCII.  Every line of it ends with byte 10, the last one of a part
 * too; no zero byte is written behind it.  Numbers are decimal, with no zero in
 * front.
 * Asks 1 to 16, then 17 (part), then 18 (out_len of this part's length or more;
 * TABLEGULL_MAX_CLAUSE_TEXT is enough for any).
 * count: the bytes written.
 */
struct tablegull_answer tablegull_clause_text(const uint8_t *sheet, size_t len,
                                              uint64_t part, uint8_t *out,
                                              size_t out_len);

/*
 * Writes one part of the sheet's report as text.  Part k below L is a line about
 * line k: its number, its report's name ("impossible", "certain", "halves" or
 * "counted"), and weight in sixteenths, chains and N, the numbers of
 * tablegull_line_report.  Part L is the line "total" with the three numbers of
 * tablegull_totals.  One blank stands between two of these, and none at the end.
 * Parts 0 to L, one after the other, are the report.
 * Bytes and numbers are as in tablegull_clause_text.
 * Asks 1 to 16, then 17 (part), then 18 (out_len of this part's length or more;
 * TABLEGULL_MAX_REPORT_TEXT is enough for any).
 * count: the bytes written.
 */
struct tablegull_answer tablegull_report_text(const uint8_t *sheet, size_t len,
                                              uint64_t part, uint8_t *out,
                                              size_t out_len);

/*
 * Joins two trails, such as a key schedule's and the rounds'.  Writes a sheet
 * with its checks: width, inputs and lines of the first, then the lines of the
 * second with operands renumbered.  Words are numbered as operands name them:
 * the inputs are words 0 to m - 1, and line k makes word m + k.  Input j of the
 * second is word names[j] of the first; the word of the second's line k becomes
 * word m + L + k, with m and L of the first.  tablegull_read accepts the joined
 * sheet.
 *
 * A line of either sheet that XORs a word with itself is kept; tablegull_seal
 * refuses the joined sheet then, by 23.
 *
 * A starting value follows the joined trail exactly if it follows the first and
 * its named words, taken as inputs, follow the second.  The report of a line is
 * the one that it has on the sheet it came from; the totals may be less than the
 * sums of both, as a line of the second may repeat one of the first.
 *
 * Asks 1 to 16 of the first sheet, then 1 to 16 of the second, then 20 (both
 * widths), 21 (names, and names_len, which has to be m of the second), 22 (the
 * lines of both), and 18 last (out_len of the joined sheet's length or more;
 * TABLEGULL_MAX_SHEET is enough for any).
 * Number and place do not tell which sheet was refused by 1 to 16: it was the
 * first if tablegull_read refuses the first, else the second.
 * The two sheets may be the same bytes; out may not overlap either, nor names.
 * count: the bytes written, 512 * (1 + lines / 31 rounded up).
 */
struct tablegull_answer tablegull_join(const uint8_t *first, size_t first_len,
                                       const uint8_t *second, size_t second_len,
                                       const uint64_t *names, size_t names_len,
                                       uint8_t *out, size_t out_len);

/*
 * Replaces the difference that a line states, and renews the check of the block
 * that the line is in.  Line k is record k % 31 of block 1 + k / 31: bytes 12 to
 * 15 of the record are written, and bytes 508 to 511 of the block.  No other
 * byte changes, and tablegull_read accepts the sheet afterwards.
 *
 * The difference counts in all its 64 bits, and so does the line: 2^32 + 1 is
 * not taken for 1.
 *
 * A line that XORs a word with itself is changed like any other, and stays such a
 * line; tablegull_seal refuses the changed sheet then, by 23.
 *
 * Asks 1 to 16, then 17 (line), then 14 (difference; place: the line).
 * Number and place do not tell whether 14 was about the sheet or the difference:
 * it was the sheet if tablegull_read refuses the sheet, else the difference.
 * count: 0.
 */
struct tablegull_answer tablegull_change(uint8_t *sheet, size_t len,
                                         uint64_t line, uint64_t difference);

/*
 * Tries a change, and leaves the sheet whole.  Writes the reports of all lines,
 * 16 bytes each, that the sheet would have with this difference in this line:
 * what tablegull_report writes of a copy that tablegull_change has changed.
 *
 * Asks 1 to 16, then 17 (line) and 14 (difference; place: the line) as
 * tablegull_change does, and 18 last (out_len of 16 L or more;
 * TABLEGULL_MAX_REPORT is enough for any).
 * out may not overlap the sheet.
 * count: the bytes written, 16 L.
 */
struct tablegull_answer tablegull_trial(const uint8_t *sheet, size_t len,
                                        uint64_t line, uint64_t difference,
                                        uint8_t *out, size_t out_len);

/*
 * Makes up to 64 changes, one after the other.  pairs holds a line and the new
 * difference for it, then the next line and its difference, and so on.
 * pairs_len counts numbers, not pairs; a last number with no partner is no
 * pair, and nothing is asked about it.
 *
 * Sheet and replies are those of tablegull_change called once for each pair, in
 * order.  A reply is one byte: 0 for a pair that was applied, else the number
 * by which tablegull_change would refuse it, 17 (line) or 14 (difference).  A
 * pair that is refused is skipped, and those after it are applied all the same.
 * The last pair applied to a line wins.  Into the sheet are written, for each
 * pair applied, the bytes that tablegull_change writes.  No other byte of it
 * changes, and tablegull_read accepts it afterwards.
 *
 * Asks 1 to 16, then 24 (pairs_len / 2 of 64 or less), and 25 last (replies_len
 * of pairs_len / 2 or more; TABLEGULL_MAX_CHANGES is enough for any).  A call
 * that is refused changes neither the sheet nor the replies.  That a pair is
 * refused does not refuse the call; so a refusal by 14 is about the sheet.
 * Replies are written from the start, one for each pair.  replies_len may be
 * larger, and the rest of the buffer is kept.
 * sheet, pairs and replies may not overlap; pairs is aligned for uint64_t.
 * count: the pairs, pairs_len / 2 rounded down.
 */
struct tablegull_answer tablegull_change_all(uint8_t *sheet, size_t len,
                                             const uint64_t *pairs,
                                             size_t pairs_len, uint8_t *replies,
                                             size_t replies_len);

/*
 * Writes the sheet's index: which lines use each word.  Words are numbered as
 * operands name them: the inputs are words 0 to m - 1, and line k makes word
 * m + k.  For each word, rising from 0, a number says how many lines name it as
 * a used operand; behind it stand these lines, ascending.  A line that names a
 * word twice stands there once.  The first operand is used by every kind, the
 * second by kinds 1, 5 and 9: the others have 0 in its field, which does not
 * name word 0.
 *
 * The index knows no differences, so that changing one leaves it as it is.
 *
 * Asks 1 to 16, then 18 (out_len of this index's length or more;
 * TABLEGULL_MAX_INDEX is enough for any).
 * out is aligned for uint16_t, and may not overlap the sheet.
 * count: the numbers written: m + L, and one more for each line of each word.
 */
struct tablegull_answer tablegull_index(const uint8_t *sheet, size_t len,
                                        uint16_t *out, size_t out_len);

/*
 * Changes a difference as tablegull_change does, and renews the report that is
 * kept beside the sheet: afterwards it is what tablegull_report writes of the
 * changed sheet.  Into the sheet are written the bytes that tablegull_change
 * writes; into the report the 16 bytes of the line, and of each line that the
 * index has for its word.  All other lines' reports are the same as before.
 * The index is only read, and is the changed sheet's own as well: so index and
 * report can be lent to the next call as they are.
 *
 * index and report have to be the sheet's own, number by number and byte by
 * byte: what tablegull_index and tablegull_report write of it, with index_len
 * and report_len what these count.  Both are compared before anything is
 * written.  A change by another call may leave a report that is no longer the
 * sheet's own.
 *
 * Asks 1 to 16, then 26 (index, index_len, report and report_len), then 17
 * (line) and 14 (difference; place: the line) as tablegull_change does.  A call
 * that is refused changes neither the sheet nor the report.
 * sheet, index and report may not overlap; index is aligned for uint16_t.
 * count: 0.
 */
struct tablegull_answer tablegull_change_indexed(uint8_t *sheet, size_t len,
                                                 const uint16_t *index,
                                                 size_t index_len,
                                                 uint8_t *report,
                                                 size_t report_len,
                                                 uint64_t line,
                                                 uint64_t difference);

#ifdef __cplusplus
}
#endif

#endif /* TABLEGULL_H */
