/* The proved library's calls, on numbers and slices.

   A slice is a pointer and, after it, its length. The pointer may be any where the length is 0. What is
   marked const is only read; every other slice is written, and must overlap no other. Nothing else is
   asked of a caller: every input has an answer, and no call reads or writes beyond its slices.

   Every call but the two picks answers a refusal: 0 where nothing is refused, else

       number + 256 x place

   with the numbers below; the place is a node's id, a root's or an entry's position, a line, or 0. wal_number and
   wal_place take it apart. WAL_TOO_SHORT comes before all else where an array lent for the answer is too short:
   nothing is done then.

   Calls share nothing, keep nothing and allocate nothing: any number may run at once, on any threads.
   A call takes at most WAL_STACK bytes of stack (wal_run and those that call it the most, for the pairs of up to 1,024
   nodes and the index of who reads each), but for wal_model, which takes at most WAL_MODEL_STACK whatever the text (for
   the values of as many nodes, and where the names of their variables stand), wal_mend, which takes at most
   WAL_MEND_STACK (for the file as it will be, and who reads which node), and wal_btor2, which takes at most
   WAL_BTOR2_STACK, whatever the text. */
#ifndef WALUMPEH_H
#define WALUMPEH_H

#include <stddef.h>
#include <stdint.h>

#ifdef __cplusplus
extern "C" {
#endif

enum { WAL_STACK = 27648, WAL_MODEL_STACK = 49152, WAL_MEND_STACK = 36864, WAL_BTOR2_STACK = 49152 };

/* What a node computes. Fields a, b, c of a node name its operands; extract's b is its lowest bit. */
enum {
    WAL_VARIABLE = 0,
    WAL_CONSTANT = 1,
    WAL_NOT = 2,
    WAL_AND = 3,
    WAL_XOR = 4,
    WAL_ADD = 5,
    WAL_MUL = 6,
    WAL_SHL = 7,
    WAL_LSHR = 8,
    WAL_EQ = 9,
    WAL_BELOW = 10, /* a below b, unsigned */
    WAL_IF = 11,    /* if a then b else c */
    WAL_CONCAT = 12, /* a high */
    WAL_EXTRACT = 13,
    WAL_SIGNED_BELOW = 14, /* a below b, signed */
    WAL_ASHR = 15,         /* a shifted right, its top bit filling */
    WAL_SIGN_EXTEND = 16,  /* a with its top bit repeated in front */
    WAL_UDIV = 17          /* a divided by b, unsigned, at most 16 bits; all ones where b is 0 */
};

/* Refusals, in the order of checking; in brackets what the place is. */
enum {
    WAL_ACCEPTED = 0,
    WAL_FEW_BYTES = 1,     /* fewer than 9 bytes */
    WAL_MARK = 2,          /* the mark is not TBV */
    WAL_VERSION = 3,       /* the version is not 1 */
    WAL_NODES = 4,         /* more than 1,024 nodes */
    WAL_ROOTS = 5,         /* more than 256 roots */
    WAL_LENGTH = 6,        /* the length is not 9 + 24 for each node + 2 for each root */
    WAL_KIND = 7,          /* [node] the kind is over 17 */
    WAL_WIDTH = 8,         /* [node] the width is 0 or over 64 */
    WAL_DIVISION = 20,     /* [node] a division of more than 16 bits */
    WAL_OPERAND = 9,       /* [node] an operand's id is not below the node's own */
    WAL_OPERAND_NO_NODE = 21, /* [node] an operand's id is no node's (wal_mend, in place of 9) */
    WAL_CIRCLE = 22,       /* [node] it can never be placed: operands form a circle (wal_mend) */
    WAL_UNUSED_FIELD = 10, /* [node] a field that the kind does not use is not zero */
    WAL_WIDTH_RULE = 11,   /* [node] the widths do not fit */
    WAL_PAIR = 12,         /* [node] lo, hi are not a ternary word of the width, or a constant's differ */
    WAL_ROOT = 13,         /* [root] no node, or one of more than 1 bit */
    WAL_ROOT_REPEATED = 16, /* [root] its id stands earlier in the file */
    WAL_FEW_PLACES = 14,   /* fewer places for values than nodes */
    WAL_START = 15,        /* [node] a variable's start does not agree with its pair */
    WAL_STARTS = 17,       /* more than 256 starts, or lengths or budgets that are not one a start */
    WAL_LENGTHS = 18,      /* the lengths' sum exceeds the tape */
    WAL_FEW_FOR_STARTS = 19, /* fewer places for values than starts times nodes */
    WAL_SHORT_OUTPUT = 25, /* a lent output is too short (wal_mend) */
    WAL_NAMED = 23,          /* no name, or more than 8 */
    WAL_NO_VARIABLE = 24,    /* a name that is no variable, or is given twice */
    WAL_FEW_TO_KEEP = 26,    /* fewer than 64 times as many places to keep in as nodes */
    WAL_NAMES = 30,          /* the list has too few or many names, or one twice */
    WAL_SYNTAX = 31,         /* no get-model answer, or a width outside 1 to 64 */
    WAL_UNKNOWN_NAME = 32,   /* [entry] no variable has the name */
    WAL_NAME_REPEATED = 33,  /* [entry] an earlier entry has the name */
    WAL_ENTRY_WIDTH = 34,    /* [entry] sort or value are not of the variable's width, or a decimal is too large */
    WAL_ABSENT = 35,         /* [node] the variable has no entry */
    WAL_CONTRADICTED = 36,   /* [node] the value contradicts a fixed bit */
    WAL_TOO_SHORT = 255    /* an array lent for the answer is too short: nothing was done */
};

/* Refusals of a BTOR2 text by wal_btor2, which have numbers of their own; the place is the first line that fails, from 1. */
enum {
    WAL_BTOR2_FORMAT = 1,  /* not a line of the format */
    WAL_BTOR2_KEYWORD = 2, /* a keyword outside the list */
    WAL_BTOR2_ID = 3,      /* an id not increasing or not defined */
    WAL_BTOR2_WIDTH = 4,   /* sorts or widths that do not fit, or a value too wide */
    WAL_BTOR2_ROOM = 5     /* more than 1,024 nodes, 256 roots or the lent bytes needed so far; line 0 if under 9 */
};

/* Verdicts of a run; WAL_REFUSED stands beside a refusal. */
enum {
    WAL_MODEL = 0,  /* every root is 1 */
    WAL_SPENT = 1,  /* the budget is used up */
    WAL_ENDED = 2,  /* the tape cannot serve a draw whole */
    WAL_CLOSED = 3, /* a root is fixed at 0 */
    WAL_REFUSED = 4
};

/* Where wal_run puts what in out, and how many words it needs there. */
enum {
    WAL_OUT_VERDICT = 0,
    WAL_OUT_MOVES = 1,
    WAL_OUT_STEPS = 2,
    WAL_OUT_WORDS = 3,
    WAL_OUT_EVALUATED = 4,
    WAL_RUN_OUT = 5
};

/* Where wal_batch puts what of a start's answer, how many words each takes, and the most starts. */
enum {
    WAL_ANSWER_REFUSAL = 0,
    WAL_ANSWER_VERDICT = 1,
    WAL_ANSWER_MOVES = 2,
    WAL_ANSWER_STEPS = 3,
    WAL_ANSWER_WORDS = 4,
    WAL_ANSWER_EVALUATED = 5,
    WAL_ANSWER = 6,
    WAL_MOST_STARTS = 256
};

/* Where wal_gather puts what in out, how many words it needs there, the most solutions that are kept, and the most
   names. */
enum {
    WAL_GATHER_KEPT = 0,
    WAL_GATHER_REPEATS = 1,
    WAL_GATHER_UNKEPT = 2,
    WAL_GATHER_OUT = 3,
    WAL_MOST_KEPT = 64,
    WAL_MOST_NAMES = 8
};

/* Where wal_need puts what in out, and how many words it needs there. */
enum { WAL_NEED_CHAIN = 0, WAL_NEED_WORDS = 1, WAL_NEED_OUT = 2 };

/* Where wal_model puts what in out, and how many words it needs there. */
enum { WAL_MODEL_YES = 0, WAL_MODEL_ROOT = 1, WAL_MODEL_OUT = 2 };

/* Where wal_btor2 puts what in out, how many words it needs there, and how many bytes a problem has at most. */
enum { WAL_BTOR2_BYTES = 0, WAL_BTOR2_OUT = 1, WAL_PROBLEM_MOST = 9 + 24 * 1024 + 2 * 256 };

/* A refusal's number and place. */
static inline unsigned wal_number(uint64_t refusal) { return (unsigned)(refusal & 255); }
static inline uint64_t wal_place(uint64_t refusal) { return refusal >> 8; }

/* The problem check: refusals 1 to 13, 16 and 20. */
uint64_t wal_check(const uint8_t *problem, size_t problem_len);

/* A whole run: those, and 14 and 15. Of the values only the variables' places are read; after a verdict the
   first N hold every node's value and those after them what they held, and after a refusal none is
   changed. out takes verdict, moves, steps, words and nodes evaluated (N at the beginning, and for every
   finished move that sets a variable the nodes reachable upward from it, itself included); beside a refusal
   WAL_REFUSED and four times 0. Words of out after the fifth are not touched. */
uint64_t wal_run(const uint8_t *problem, size_t problem_len, uint64_t *values, size_t values_len,
                 const uint64_t *tape, size_t tape_len, uint16_t budget, uint64_t *out, size_t out_len);

/* Runs of one problem from up to 256 starts, the problem being checked once: the refusals of wal_check, then 17, 18
   and 19, each at place 0; any of them leaves values and answers as they were. Start k has the N places from k x N
   on, lengths[k] words of the tape after those of the starts before it (a sum of numbers, never reduced), and
   budgets[k] moves. answers takes six words for each start: its own refusal (15 or none), and what wal_run puts
   into out. Answers and values are those of wal_run on each start's places, words and budget; a start that is
   refused changes nothing. Places from starts x N on, words of the tape after the lengths' sum and words after 6 x
   starts of answers are not touched. WAL_TOO_SHORT where answers has fewer than 6 x starts words. */
uint64_t wal_batch(const uint8_t *problem, size_t problem_len, uint64_t starts, uint64_t *values,
                   size_t values_len, const uint64_t *tape, size_t tape_len, const uint64_t *lengths,
                   size_t lengths_len, const uint16_t *budgets, size_t budgets_len, uint64_t *answers,
                   size_t answers_len);

/* The frame bench: wal_batch, and of its models those that differ on the named variables. names has up to 8 ids. The
   refusals of wal_batch, then 23, 24 and 26, each at place 0 and before any start runs; any of them leaves values,
   kept and answers as they were. Values and answers are those of wal_batch. Every model that agrees with no kept one
   on all named variables is kept, in order of arrival, while fewer than 64 are: kept solution k has its N values in
   the places of kept from k x N on. One that agrees with a kept one is a repeat, room or not; the rest are unkept.
   Places after the last kept solution are not touched. out takes kept, repeats and unkept; beside a refusal 0, 0 and
   0. WAL_TOO_SHORT where answers has fewer than 6 x starts words, or out fewer than 3. */
uint64_t wal_gather(const uint8_t *problem, size_t problem_len, uint64_t starts, uint64_t *values,
                    size_t values_len, const uint64_t *tape, size_t tape_len, const uint64_t *lengths,
                    size_t lengths_len, const uint16_t *budgets, size_t budgets_len, const uint16_t *names,
                    size_t names_len, uint64_t *kept, size_t kept_len, uint64_t *answers, size_t answers_len,
                    uint64_t *out, size_t out_len);

/* How long a tape a problem needs: refusals 1 to 13, 16 and 20. out takes H, the longest chain of operand
   links under any root, and budget x (1 + 2H); beside a refusal 0 and 0. No move makes more than H steps,
   and a run of that budget or a smaller one that is lent so many words never says WAL_ENDED, from whatever
   start. Words of out after the second are not touched. */
uint64_t wal_need(const uint8_t *problem, size_t problem_len, uint16_t budget, uint64_t *out, size_t out_len);

/* Our word for another solver's model: the refusals of wal_check, then 30 to 36, each tried over the whole text
   before the next. names has a name for each variable, by ascending id, each ended by a line feed, the last
   perhaps by the list's end; of a name with a bar at both ends the inside counts. text is a get-model answer in
   SMT-LIB syntax: ( or (model, entries (define-fun NAME () (_ BitVec W) VALUE) with values #b.., #x.. or
   (_ bvN w), and ). A line "sat" before it is not part of it. Entries count from 0. out takes 1 and 0 where
   every root is 1 under the text's values, 0 and the position of the first root that is 0 otherwise, and 0 and
   0 beside a refusal. Words of out after the second are not touched. */
uint64_t wal_model(const uint8_t *problem, size_t problem_len, const uint8_t *names, size_t names_len,
                   const uint8_t *text, size_t text_len, uint64_t *out, size_t out_len);

/* A problem put in order whose operands may stand above their readers. Nodes are placed one by one, always the lowest
   old id whose operands are all placed; operands and roots are renumbered. Refusals: 1 to 6; 7, 8 and 20 node by node;
   21; 22, whose place is the lowest id that can never be placed; 10 to 12 node by node in the new order, the place
   being the old id; 13; 16; 25. mended then begins with as many bytes as problem has, which wal_check accepts, and
   map with the old id of each new one; what lies beyond is not touched. A problem in order comes back byte for byte.
   Refused, nothing is written. */
uint64_t wal_mend(const uint8_t *problem, size_t problem_len, uint8_t *mended, size_t mended_len, uint16_t *map,
                  size_t map_len);
/* The combinational part of a BTOR2 text as a problem: refusals WAL_BTOR2_FORMAT to WAL_BTOR2_ROOM. The inputs are its
   variables, in the order of their lines, all bits free; an assignment of them meets all constraints exactly if it makes all
   roots 1. The bytes are written to the front of problem, and wal_check accepts them; what lies behind them is not touched,
   and beside a refusal nothing is. out takes how many bytes there are, 0 beside a refusal. Words of out after the first are
   not touched. WAL_PROBLEM_MOST bytes are room for every problem. */
uint64_t wal_btor2(const uint8_t *text, size_t text_len, uint8_t *problem, size_t problem_len, uint64_t *out,
                   size_t out_len);

/* The pick from the inverse (which = 0) or consistent (else) set of an operand's position: 1 with the
   value in out[0], 0 where the set is empty, 2 where no accepted problem has such a node, position and
   target, or out has no place. spot has 12 words: the widths of operands a, b, c, their los, their his
   and their current values, zeros where the kind has no such operand; words that are missing are 0. low
   is extract's lowest bit, else 0. */
uint8_t wal_pick(uint8_t kind, uint32_t width, uint32_t low, const uint64_t *spot, size_t spot_len,
                 uint32_t position, uint64_t target, uint64_t proposal, uint8_t which, uint64_t *out,
                 size_t out_len);

/* Whether an operand's position is essential: 1, 0, or 2 as above. */
uint8_t wal_essential(uint8_t kind, uint32_t width, uint32_t low, const uint64_t *spot, size_t spot_len,
                      uint32_t position, uint64_t target);

#ifdef __cplusplus
}
#endif

#endif
