/* The library's functions for C callers: a policy text and a piece of evidence judged, its line, its bad line, the sum of two
   typings, the merge of two judged policies, the bad line of a typing that they refuse, and the spelling of a policy.

   Every slice is two arguments, where it begins and how many elements it has. A pointer is never null, not even where the
   length is 0, and numbers stand at addresses divisible by 8. No text is changed, and texts may overlap each other. What is
   written, a buffer of bytes, an array of numbers or memory, overlaps nothing else of the same call.

   Nothing else is asked: every text of every length has an answer. No function keeps anything between calls, allocates or
   prints, so calls from several threads do not meet. A call takes less stack than ARBAC_STACK and the numbers beside it say.

   Beside each function stands one whose name ends in `_in`: it answers and writes the same, and works in memory that is lent to
   it as its last slice, so it is faster and takes less stack. The memory has ARBAC_MEMORY words, for a merge ARBAC_MERGE_MEMORY,
   or more. It may hold anything before the call, holds nothing of use after it, and may be lent again, though never to two calls
   at once.

   WHAT WAS ANSWERED IS THE NUMBER THAT A FUNCTION RETURNS, AND NOTHING ELSE SAYS IT. NO ARRAY AND NO BUFFER TELLS WHICH ANSWER
   IT BELONGS TO: LOOK AT THE NUMBER FIRST. ARBAC_NO_ROOM AND ARBAC_NO_MEMORY ARE NO ANSWERS: THE ARRAY OR THE MEMORY WAS TOO
   SHORT, NOTHING WAS JUDGED AND NOTHING WAS WRITTEN. A POLICY IS SAFE ONLY WHERE `arbac_check` OR `arbac_check_in` RETURNS
   ARBAC_SAFE.

   After every number but ARBAC_NO_ROOM and ARBAC_NO_MEMORY all values of the array are told, as many as its size below says:
   those that are listed for the answer, in that order, and zeros past them. Past its size the array keeps what it had.

   `out` of the sum, the merge and the spelling holds a text after ARBAC_DONE only, and past the text it keeps what it had. After
   every other number, ARBAC_NO_ROOM and ARBAC_NO_MEMORY among them, all of it is as it was.

   `arbac_check_line` AND `arbac_check_line_in` RETURN A LENGTH, AND NOT AN ANSWER'S NUMBER. FROM THEM ALONE 0 SAYS THAT THE
   BUFFER OR THE MEMORY WAS TOO SHORT, and then no line was written.

   A line is counted from 1, and is 0 for 10, 14, 17, 18, 19 and 20. Users, rules, goals and steps are counted from 1. Joins and
   leaves are steps too. The policy's users are counted first, and those who join in a trace follow in order of joining, 64 in all
   at most. A trace knows the names of the policy's users and of those who join on the lines above. */
#ifndef ARBAC_H
#define ARBAC_H

#include <stddef.h>
#include <stdint.h>

#ifdef __cplusplus
extern "C" {
#endif

/* The array was too short: this is no answer and no text. */
#define ARBAC_NO_ROOM 255

/* The memory was too short: this is no answer and no text. The array is looked at first. */
#define ARBAC_NO_MEMORY 254

/* The verdicts on a piece of evidence. */
#define ARBAC_SAFE 0
#define ARBAC_ATTACKED 1
#define ARBAC_UNPROVED 2
#define ARBAC_BROKEN 3
#define ARBAC_SHORT 4

/* The success of a sum, a merge or a spelling: the text is in `out`. */
#define ARBAC_DONE 0

/* The refusals. */
#define ARBAC_POLICY_TOO_LONG 10
#define ARBAC_POLICY_MALFORMED 11
#define ARBAC_POLICY_ABOVE_LIMIT 12 /* a line above a count limit */
#define ARBAC_POLICY_UNDECLARED 13 /* an undeclared name */
#define ARBAC_EVIDENCE_TOO_LONG 14
#define ARBAC_EVIDENCE_MALFORMED 15
#define ARBAC_EVIDENCE_UNDECLARED 16 /* an unknown name, a wrong role name at its place or a rule number above the count */
#define ARBAC_DIRECTORIES_DIFFER 17 /* roles, users, clearances or holdings of the two policies */
#define ARBAC_SUM_TOO_LONG 18 /* the sum's text is longer than `out` or than 32,768 bytes */
#define ARBAC_JOINT_ABOVE_LIMIT 19 /* a joint count above its limit */
#define ARBAC_SPELLING_TOO_LONG 20 /* the policy's spelling is longer than `out` */
#define ARBAC_EVIDENCE_ABOVE_LIMIT 21 /* a join line with the 65th user name of policy and trace together */

/* The parts of a policy. The number beside a part is that of the user, the rule or the goal. */
#define ARBAC_PART_HOLDINGS 1
#define ARBAC_PART_ASSIGN 2
#define ARBAC_PART_REVOKE 3
#define ARBAC_PART_GOAL 4

/* The texts: of a bad line, of a sum and of a merge. A refusal of a sum or a merge that speaks of none has 0. */
#define ARBAC_IN_POLICY 1
#define ARBAC_IN_EVIDENCE 2

#define ARBAC_SUM_POLICY 1
#define ARBAC_SUM_FIRST 2
#define ARBAC_SUM_SECOND 3

#define ARBAC_MERGE_POLICY_1 1
#define ARBAC_MERGE_TYPING_1 2
#define ARBAC_MERGE_POLICY_2 3
#define ARBAC_MERGE_TYPING_2 4

/* The judgings of a merge. */
#define ARBAC_TYPING_1_ON_POLICY_1 1
#define ARBAC_TYPING_2_ON_POLICY_2 2
#define ARBAC_TYPING_1_ON_RULES_2 3
#define ARBAC_TYPING_2_ON_RULES_1 4

/* How many numbers or bytes have room for every answer. An array of fewer numbers has no room, also where the answer at hand
   has fewer values. A line needs as many bytes as it has, and none has more than ARBAC_LINE. A text has at most ARBAC_TEXT. */
#define ARBAC_CHECK 5
#define ARBAC_LINE 128
#define ARBAC_BAD_LINE 2
#define ARBAC_SUM 2
#define ARBAC_MERGE 6
#define ARBAC_SPELL 1
#define ARBAC_TEXT 32768

/* How many words of memory a call needs, and a merge. */
#define ARBAC_MEMORY 3072
#define ARBAC_MERGE_MEMORY 6144

/* A call takes fewer bytes of stack than this, a merge fewer than the second. */
#define ARBAC_STACK 98304
#define ARBAC_MERGE_STACK 131072

/* The same in lent memory: a call, and a sum or a merge. */
#define ARBAC_LENT_STACK 32768
#define ARBAC_LENT_MERGE_STACK 49152

/* Judges a piece of evidence, a typing or a trace, over a policy.

     ARBAC_SAFE       roles, assign rules, revoke rules, goals, pinned names
     ARBAC_ATTACKED   steps, user, goal, 0, 0
     ARBAC_UNPROVED   part, number, 0, 0, 0
     ARBAC_BROKEN     step, 0, 0, 0, 0
     ARBAC_SHORT      steps, 0, 0, 0, 0
     10 to 16, 21     line, 0, 0, 0, 0
     ARBAC_NO_ROOM    nothing, where values_length is below ARBAC_CHECK  */
uint64_t arbac_check(const uint8_t *policy, size_t policy_length,
                     const uint8_t *evidence, size_t evidence_length,
                     uint64_t *values, size_t values_length);

/* The same in lent memory; ARBAC_NO_MEMORY and nothing, where memory_length is below ARBAC_MEMORY. */
uint64_t arbac_check_in(const uint8_t *policy, size_t policy_length,
                        const uint8_t *evidence, size_t evidence_length,
                        uint64_t *values, size_t values_length,
                        uint64_t *memory, size_t memory_length);

/* The same answer as the line that the program `check` prints, fields parted by tabs, with its LF and no NUL. Returns its
   length; 0, and nothing is written, where line_length is below that. */
size_t arbac_check_line(const uint8_t *policy, size_t policy_length,
                        const uint8_t *evidence, size_t evidence_length,
                        uint8_t *line, size_t line_length);

/* The same in lent memory; 0, and nothing is written, also where memory_length is below ARBAC_MEMORY. */
size_t arbac_check_line_in(const uint8_t *policy, size_t policy_length,
                           const uint8_t *evidence, size_t evidence_length,
                           uint8_t *line, size_t line_length,
                           uint64_t *memory, size_t memory_length);

/* Where the bad line stands that 11, 12, 13, 15 or 16 of `arbac_check` speak of.

     ARBAC_IN_POLICY     where the line begins in the policy, its length without LF;
                         0, 0 where `end` is missing and for every other answer, 21 among them
     ARBAC_IN_EVIDENCE   where the line begins in the evidence, its length without LF
     ARBAC_NO_ROOM       nothing, where place_length is below ARBAC_BAD_LINE

   A blank first line of the policy is 0, 0 too; arbac_check has its number. */
uint64_t arbac_bad_line(const uint8_t *policy, size_t policy_length,
                        const uint8_t *evidence, size_t evidence_length,
                        uint64_t *place, size_t place_length);

/* The same in lent memory; ARBAC_NO_MEMORY and nothing, where memory_length is below ARBAC_MEMORY. */
uint64_t arbac_bad_line_in(const uint8_t *policy, size_t policy_length,
                           const uint8_t *evidence, size_t evidence_length,
                           uint64_t *place, size_t place_length,
                           uint64_t *memory, size_t memory_length);

/* As arbac_bad_line, of a policy and a text where a typing is wanted, which is read as a typing whatever its first line: the bad
   line of a typing that a sum or a merge refuses with 15 or 16, over the policy that it is read over, or of a policy that they
   refuse with 11, 12 or 13. A trace there is bad at line 1. */
uint64_t arbac_bad_typing_line(const uint8_t *policy, size_t policy_length,
                               const uint8_t *typing, size_t typing_length,
                               uint64_t *place, size_t place_length);

/* The same in lent memory; ARBAC_NO_MEMORY and nothing, where memory_length is below ARBAC_MEMORY. */
uint64_t arbac_bad_typing_line_in(const uint8_t *policy, size_t policy_length,
                                  const uint8_t *typing, size_t typing_length,
                                  uint64_t *place, size_t place_length,
                                  uint64_t *memory, size_t memory_length);

/* Writes the sum of two typings over one policy, accepted or not, as a typing text.

     ARBAC_DONE            pinned names, length of the text in `out`
     10 to 16              text, line
     ARBAC_SUM_TOO_LONG    0, 0
     ARBAC_NO_ROOM         nothing, where values_length is below ARBAC_SUM  */
uint64_t arbac_sum(const uint8_t *policy, size_t policy_length,
                   const uint8_t *first, size_t first_length,
                   const uint8_t *second, size_t second_length,
                   uint8_t *out, size_t out_length,
                   uint64_t *values, size_t values_length);

/* The same in lent memory; ARBAC_NO_MEMORY and nothing, where memory_length is below ARBAC_MEMORY. */
uint64_t arbac_sum_in(const uint8_t *policy, size_t policy_length,
                      const uint8_t *first, size_t first_length,
                      const uint8_t *second, size_t second_length,
                      uint8_t *out, size_t out_length,
                      uint64_t *values, size_t values_length,
                      uint64_t *memory, size_t memory_length);

/* Merges two policies over the same users and roles, each with a typing of its own, and writes the sum of the typings, which
   is accepted for all rules and goals together.

     ARBAC_DONE       roles, joint assign rules, revoke rules and goals, pinned names, length of the text in `out`
     ARBAC_UNPROVED   judging, part, number, 0, 0, 0
     10 to 16         text, line, 0, 0, 0, 0
     17, 18 or 19     0, 0, 0, 0, 0, 0
     ARBAC_NO_ROOM    nothing, where values_length is below ARBAC_MERGE  */
uint64_t arbac_merge(const uint8_t *policy_1, size_t policy_1_length,
                     const uint8_t *typing_1, size_t typing_1_length,
                     const uint8_t *policy_2, size_t policy_2_length,
                     const uint8_t *typing_2, size_t typing_2_length,
                     uint8_t *out, size_t out_length,
                     uint64_t *values, size_t values_length);

/* The same in lent memory; ARBAC_NO_MEMORY and nothing, where memory_length is below ARBAC_MERGE_MEMORY. */
uint64_t arbac_merge_in(const uint8_t *policy_1, size_t policy_1_length,
                        const uint8_t *typing_1, size_t typing_1_length,
                        const uint8_t *policy_2, size_t policy_2_length,
                        const uint8_t *typing_2, size_t typing_2_length,
                        uint8_t *out, size_t out_length,
                        uint64_t *values, size_t values_length,
                        uint64_t *memory, size_t memory_length);

/* Writes a policy back as text, for which every text of that policy gives the same bytes: has lines in user order, then role order,
   all other lines in the order read, the names of a set in role order. It is as long as the text that was read.

     ARBAC_DONE                 length of the text in `out`
     10 to 13                   line
     ARBAC_SPELLING_TOO_LONG    0
     ARBAC_NO_ROOM              nothing, where values_length is below ARBAC_SPELL  */
uint64_t arbac_spell(const uint8_t *policy, size_t policy_length,
                     uint8_t *out, size_t out_length,
                     uint64_t *values, size_t values_length);

/* The same in lent memory; ARBAC_NO_MEMORY and nothing, where memory_length is below ARBAC_MEMORY. */
uint64_t arbac_spell_in(const uint8_t *policy, size_t policy_length,
                        uint8_t *out, size_t out_length,
                        uint64_t *values, size_t values_length,
                        uint64_t *memory, size_t memory_length);

#ifdef __cplusplus
}
#endif

#endif
