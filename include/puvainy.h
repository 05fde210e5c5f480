/* Puvainy's eight entries. The library is target/staticlib/libpuvainy.a, written by
 * `.ci/archive`.
 *
 * Each entry is proved for every text and for buffers of any length and contents. It keeps no pointer
 * and no state from call to call, allocates nothing, and makes no call to the system. Calls on
 * different buffers may run at the same time.
 *
 * A buffer is a pointer and its length in elements: bytes for `job`, `text` and `output`, 32-bit numbers
 * for `workspace` and `catalogue`. The buffers of one call must not overlap, `workspace` and `catalogue` must be
 * aligned for uint32_t, and no pointer may be NULL, not even where the length is 0.
 *
 * A job is six lines, each ended by byte 10, nothing after; at most 1,024 bytes in all:
 *
 *     left=TERM
 *     right=TERM
 *     steps=NUMBER   at most 16
 *     size=NUMBER    at most 31
 *     depth=NUMBER   at most 15
 *     nodes=NUMBER   at most 4096
 *
 * A TERM is written operator first, items parted by one space: +, *, 0, 1, or a letter. A v letter is v and a
 * number 0 to 999, a c letter c and a number 0 to 99, without a needless 0 in front. A v letter stands for any
 * table, a c letter for one that is fixed: puvainy_rename, and with it the catalogue, renames v letters and
 * keeps c letters, and refusal 4 counts v letters alone. In all else a c letter is a letter like any other.
 *
 * A job of puvainy_find may have up to 16 `right=` lines, one after the other between left and steps, and
 * at most 4,096 bytes in all. With one right side the smaller side is taken as left, whichever it is. With
 * several left stays left, and one search serves all. The answer is then one block for each right side, in
 * the job's order, and nothing between them: each block is what the job with this right side alone answers
 * with as many slots. Where that job would be refused by 7, the block is the two lines `answer=refused` and
 * `number=7`; the call still answers. A block begins with its line `answer=..`, and no other line begins so.
 *
 * A job of puvainy_weigh is seven lines likewise, at most 1,024 bytes in all:
 *
 *     left=TERM
 *     right=TERM
 *     cost=NUMBER    at most 99
 *     size=NUMBER    at most 31
 *     depth=NUMBER   at most 15
 *     nodes=NUMBER   at most 4096
 *     weights=NUMBER NUMBER ..   ten of them, each 1 to 9, parted by one space
 *
 * The weights are those of the laws, in the order in which LAW lists them below. A line weighs what its law weighs. The
 * smaller side is taken as left, whichever it is.
 *
 * The text of puvainy_check is a derivation: three kinds of line in the form that puvainy_find prints, in
 * this order, each ended by byte 10, nothing after; at most 8,192 bytes in all:
 *
 *     left=TERM
 *     right=TERM
 *     step=LAW DIRECTION at=PLACE to=TERM   any number of times
 *
 * LAW is add_assoc, add_comm, add_zero_right, mul_assoc, mul_one_left, mul_one_right, left_distrib,
 * right_distrib, zero_mul or mul_zero (docs/guide.md says what each is), DIRECTION `forward` or `back`. PLACE
 * is `.` or at least one of l and r, in any number. One space parts the four. All that stands behind `to=` up
 * to the end of the line is the TERM.
 *
 * The derivation is good if there is a step line, the first leads on from left, each next one from the result
 * of the one before, and the last result is the same term as right: each is its law, read in its direction, at
 * its place of the term that it leads on from, with the stated result. zero_mul and mul_zero forward may bring
 * in any term. Left and right are taken as written, in either order, and may be the same term; no limit of a
 * job plays a part, nor whether a shorter derivation exists. The left, right and step lines of every block of
 * puvainy_find that says `answer=proved` are such a text, and it is good; so are those of an answer of
 * puvainy_weigh that says `answer=proved` or `answer=atmost`, if they have at most 8,192 bytes.
 *
 * A catalogue holds up to 64 equations, each under a number of its own from 1 to 999, and the count of the
 * kinds that they are. It is a buffer of exactly 346,113 numbers (PUVAINY_CATALOGUE); one that is all zeros is
 * empty. The text of puvainy_put is at most 1,024 bytes in all, eight lines and nothing after:
 *
 *     number=NUMBER   1 to 999
 *     key=KEY         raw or words
 *     and then a job's six lines
 *
 * The text of puvainy_withdraw is the one line number=NUMBER. NUMBER is written as the limits of a job are. Two
 * entries are of one kind if they have the same key, and puvainy_rename answers their jobs with the same lines:
 * the first two, `left` and `right`, under key=raw, the last two, `wleft` and `wright`, under key=words. So under
 * key=words all equations whose sides have the same words are one kind. Entries for which these lines differ in a
 * c letter are different kinds. The limits play no part, but 5 holds.
 *
 * An entry returns 100 plus the length of its answer, puvainy_put and puvainy_withdraw 100 plus the count of
 * kinds then held; or the number of a refusal. Of those that apply the one that stands first here is given:
 *
 *     99  the catalogue has not 346,113 numbers
 *     1   the text has too many bytes, or lines, keys or a limit's digits are malformed; such is a
 *         second `right=` line in all but puvainy_find, and one behind steps there.
 *         In puvainy_weigh also any other number of weights than ten.
 *         In puvainy_check all that is not as above and stands in no TERM: such is an unknown law.
 *         In puvainy_put and puvainy_withdraw also a number that is not 1 to 999, and a key that
 *         is neither raw nor words
 *     9   over 16 `right=` lines
 *     2   a side, or the result of a step line, is no term; such is one with v1000, c100, c00 or c
 *     3   a side or such a result has over 31 nodes
 *     4   left and one right side have over six different v letters together; in puvainy_check left,
 *         right and all results. c letters are not counted: two sides may have up to 32 different
 *         letters
 *     5   a limit is over its bound
 *     16  the cost is over 99, or a weight is 0 or over 9
 *     6   a right side is the same term as left
 *     10  there are several right sides, and one comes before left in the order of terms
 *     11  there is no step line
 *     12  the step lines do not lead from left to right: a place is not in its term, a law does not
 *         match there, a result is not that line's, or the last result is another term than right
 *     13  the number is listed in the catalogue
 *     14  the number to be withdrawn is not listed
 *     15  64 are listed
 *     7   the search would note more terms than there are slots, where there is one right side
 *     8   the answer, of all blocks together, is longer than the output
 *
 * Each entry gives those that stand behind its name, in this order:
 *
 *     puvainy_find                   1, 9, 2 to 6, 10, 7, 8
 *     puvainy_words, puvainy_rename  1 to 6, 8
 *     puvainy_check                  1 to 4, 11, 12, 8
 *     puvainy_put                    99, 1 to 6, 13, 15
 *     puvainy_withdraw               99, 1, 14
 *     puvainy_same                   1 to 6, 8
 *     puvainy_weigh                  1 to 5, 16, 6, 7, 8
 *
 * The order of terms: v letters by number, then c letters by number, then 0, 1, sums, products; two sums or
 * two products by their left parts, then by their right parts.
 *
 * What is left in the buffers:
 *
 *     job, text  are not written to.
 *     output     An answer fills the front, and the rest keeps its bytes. It is text, each line ended
 *                by byte 10, with no byte 0 behind it. A refusal leaves the output untouched: 8 gives
 *                none of the blocks, though some would fit.
 *
 *                An answer has up to sixteen blocks, each of some 0.5 MB at the very most (an estimate).
 *                The longest stored one, that to call 4 of examples/deep.calls, has 1,594,509 bytes in
 *                sixteen blocks. After 8 call again with more room or with fewer right sides. One of
 *                puvainy_weigh, with up to 99 lines, has some 3 MB at the very most (an estimate); the
 *                longest stored one, of 62 lines in hand, has 147,498 bytes.
 *
 *     workspace  1 to 6, 9, 10 and 16 leave it untouched. After any other return its contents are free,
 *                and no later answer depends on them: it need not be cleared.
 *
 *                A memory checker such as valgrind reports reads of a workspace that was never
 *                written. They are harmless: a search reads the heads of its index before it has
 *                written them, and a head counts only if it leads below the number of noted terms to
 *                one of its own bucket (crates/search/src/slots.rt), so no answer depends on what was
 *                there. A workspace that is cleared once keeps the checker quiet.
 *
 *     catalogue  A put that is accepted takes the first free place; a withdrawal that is accepted frees the
 *                place of its entry. A refusal leaves every number as it was, whatever the buffer held.
 *                Between calls the host keeps the numbers as it likes, in memory or in a file
 *                (examples/catalogue.c), and may read them; it must write none. With numbers that no list of
 *                calls has left, a call does no harm, and what it gives is not promised.
 *
 * The catalogue's numbers: 64 places of 5,408, and behind them, at 346,112, the count of kinds. Of a place:
 *
 *     0        the entry's number; 0: the place is free, and its other numbers mean nothing
 *     1        its key: 0 is raw, 1 words
 *     2, 3     how many numbers its left list and its right list have, at most 2,700 each
 *     4 to 7   0; kept for later rules
 *     8        here the left list begins
 *     2,708    here the right list begins
 *
 * Under key=raw the lists are the terms of puvainy_rename's `left` and `right`, item by item: vN is N, cN is
 * 1000 + N, 0 is 4096, 1 is 4097, + is 4098 and * is 4099. Under key=words they are the words of `wleft` and
 * `wright`: vN is N + 1, cN is 1001 + N, and 0 stands behind each word; both are empty where the words agree.
 *
 * Stack: at most 120,000 bytes for puvainy_find, 100,000 for puvainy_words, 190,000 for puvainy_rename,
 * 40,000 for puvainy_check, 190,000 for puvainy_put, 20,000 for puvainy_withdraw, 90,000 for puvainy_same and
 * 48,000 for puvainy_weigh on x86-64 (the macros below). That is more than the frames of the deepest calls take
 * together, with a path of 16 lines, of puvainy_weigh 99, and terms 15 deep. puvainy_check takes 35,064 bytes, for
 * one line as for a text of 8,182 bytes. puvainy_weigh takes 160 bytes for each line of its path, proved or in hand:
 * 34,488 in all for 62 lines, the longest stored of either, so 42,200 for 99 of which the first is 15 deep.
 * puvainy_check and puvainy_weigh take some 2,200 more where the names of memcpy and memset are bound in that call. The
 * gate makes the calls of examples/deep.calls on stacks of just these figures (examples/stack.c). A thread with 256 KiB
 * has enough.
 */
#ifndef PUVAINY_H
#define PUVAINY_H

#include <stddef.h>
#include <stdint.h>

#ifdef __cplusplus
extern "C" {
#endif

/* The numbers of a slot. The slots are the workspace's length divided by 40, rounded down; at most
 * 65,535 are used. */
#define PUVAINY_SLOT 40
#define PUVAINY_MOST_SLOTS 65535

/* The most bytes of a job, of one of puvainy_find, of a derivation, and of a put or a withdrawal; the most
 * right sides of a job of puvainy_find. A host that reads one byte more than a text may have, and hands it
 * over, sees a longer one refused. */
#define PUVAINY_MOST_JOB 1024
#define PUVAINY_MOST_FIND_JOB 4096
#define PUVAINY_MOST_DERIVATION 8192
#define PUVAINY_MOST_PUT 1024
#define PUVAINY_MOST_RIGHTS 16

/* The numbers of a catalogue; of each of its places, and the most places; the least and the most number that
 * an entry may have. */
#define PUVAINY_CATALOGUE 346113
#define PUVAINY_PLACE 5408
#define PUVAINY_MOST_PLACES 64
#define PUVAINY_LEAST_NUMBER 1
#define PUVAINY_MOST_NUMBER 999

/* What an answer's length, or the count of kinds, is added to. */
#define PUVAINY_ANSWER 100

/* The most bytes of stack that a call takes. */
#define PUVAINY_FIND_STACK 120000
#define PUVAINY_WORDS_STACK 100000
#define PUVAINY_RENAME_STACK 190000
#define PUVAINY_CHECK_STACK 40000
#define PUVAINY_PUT_STACK 190000
#define PUVAINY_WITHDRAW_STACK 20000
#define PUVAINY_SAME_STACK 90000
#define PUVAINY_WEIGH_STACK 48000

/* A shortest chain of lines from the smaller side to the larger, with its proof text, or that there
 * is none within the limits; of several right sides this for each. A none ends with the line `cut=yes`
 * where nodes ran out with a term still to open: nothing is settled. More nodes lead on, with slots enough
 * for the terms that come up; with too few it is refused by 7. A none ends with `cut=no` where every term
 * that steps, size and depth allow was opened: more nodes change nothing. The proof text of a block names the
 * letters of its two sides x0, x1 and so on: the v letters by number, then the c letters by number. */
size_t puvainy_find(const uint8_t *job, size_t job_len,
                    uint8_t *output, size_t output_len,
                    uint32_t *workspace, size_t workspace_len);

/* The words of both sides, and whether they are the same: the lines `same=yes` or `same=no`, `left=` and `right=`,
 * the smaller list first. With `same=no` there is one line more, the last: `differ=K`. K counts words from 0 up to
 * the first place where the lists differ; a list that is a beginning of the other differs from it at its end. So K is
 * at most as large as the left list is long, and the right list has a word K. */
size_t puvainy_words(const uint8_t *job, size_t job_len,
                     uint8_t *output, size_t output_len);

/* The equation and its words under their least renamings of v letters; every c letter is kept. Jobs that are
 * answered get the same first two lines exactly when a one-to-one renaming of v letters to v letters turns one
 * equation into the other, every c letter kept, with or without exchanging sides; these lines with limits are a
 * job again, with the same answer. The last two are both `-` exactly where a job's sides have the same words;
 * where they have not, jobs get the same last two exactly when such a renaming turns the word lists of the one
 * into those of the other. */
size_t puvainy_rename(const uint8_t *job, size_t job_len,
                      uint8_t *output, size_t output_len);

/* Whether a derivation leads from left to right: the one line `answer=good` and byte 10, so 112, if it
 * does. Then both sides have the same words. */
size_t puvainy_check(const uint8_t *text, size_t text_len,
                     uint8_t *output, size_t output_len);

/* Puts an equation into a catalogue, under its number and key. Every other entry stays as it was. */
size_t puvainy_put(const uint8_t *text, size_t text_len,
                   uint32_t *catalogue, size_t catalogue_len);

/* Takes the entry with a number out of a catalogue. Its place serves the next put that finds none before it
 * free. */
size_t puvainy_withdraw(const uint8_t *text, size_t text_len,
                        uint32_t *catalogue, size_t catalogue_len);

/* Whether both sides have the same words: the one line `same=yes` or `same=no` and byte 10, so 109 or 108. It is the
 * first line of puvainy_words' answer to the job, and no other part of that answer is made: 8 bytes of output hold
 * `same=no`, 9 hold either. Where the sides have different numbers of words these are counted and not listed; else
 * the lists are compared up to the first word at which they differ. */
size_t puvainy_same(const uint8_t *job, size_t job_len,
                    uint8_t *output, size_t output_len);

/* A lightest chain of lines from the smaller side to the larger, with its proof text; or the one in hand where nodes
 * ran out; or that there is none within the cost and the limits. Of all chains of the lines that puvainy_find searches,
 * within size and depth, none weighs less than a proved one; there may be one with fewer lines. No law is tried on the
 * whole equation before the search.
 *
 * A proved answer has the lines `answer=proved`, `left=`, `right=`, `steps=`, how many lines the chain has, at most 99,
 * `total=`, what they weigh together, `expanded=`, how many terms were opened, `uses=`, one `step=` for each line, and
 * `proof=`: those of puvainy_find, and total behind steps. A larger cost and more nodes find none lighter, and may need
 * more slots.
 *
 * Where nodes run out with right already noted, the answer is the chain by which right is noted then: `answer=atmost`,
 * and behind total a line `atleast=`; all other lines are those of a proved answer, and expanded is nodes. No such
 * chain weighs less than atleast, which is at most total: the one in hand is heavier than a lightest by no more than
 * their difference, and where that is 0 it is a lightest. With more nodes the answer is an atmost or a proved one, of a
 * chain that weighs no more than total and no less than atleast. So the difference is what more nodes can still gain;
 * slots enough for the terms that come up are needed for that, else the job is refused by 7.
 *
 * A host that swaps plans may do so by `answer=proved` and by `answer=atmost` alike. Either has a proof text, by which
 * both sides are equal; only, where total is above atleast, a chain lighter than that of an atmost may exist.
 *
 * A none has `answer=none`, `left=`, `right=`, `expanded=` and `cut=`; right was never noted. It ends with `cut=yes`
 * where nodes ran out with a term still to open: nothing is settled, and more nodes lead on. It ends with `cut=no`
 * where every term that cost, size and depth allow was opened: each such chain weighs more than cost. */
size_t puvainy_weigh(const uint8_t *job, size_t job_len,
                     uint8_t *output, size_t output_len,
                     uint32_t *workspace, size_t workspace_len);

#ifdef __cplusplus
}
#endif

#endif
