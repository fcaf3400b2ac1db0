/*
 * checker.h: the C interface of the checker.
 *
 * The checker reads a job (a routine, a state, a list of public registers and
 * cells, a speculation window and a step budget), runs the routine as if every
 * branch were guessed wrongly, and reports every address and every jump that
 * could be observed, the registers and cells that these depend on, and a
 * verdict.
 *
 * Link with libchecker_c.a. There are six functions:
 *
 *   checker_run         the mispredicting run of a job, with its verdict
 *   checker_plain_run   the same routine without any misprediction
 *   checker_compare     the mispredicting runs of a job with two states
 *   checker_test_load   the same with a state that is made from a seed
 *   checker_read_text   a routine as text, read to the bytes of its program
 *   checker_print_text  the program of a job, printed as text
 *
 *
 * WHAT HOLDS FOR ALL OF THEM
 *
 * The caller lends every byte that is used. A call keeps nothing for the next
 * one: its result depends on its arguments alone.
 *
 * A function returns 0 if it carried out the call, or else the number of the
 * refusal, 1 to 14. After a refusal every area, and the answer too, is exactly
 * as it was before the call.
 *
 * Any bytes may be given as a job, a table or a text, and areas of any length
 * may be lent: what does not fit is refused. What the caller has to see to is
 * what C cannot check:
 *   - each pointer is valid for the length given with it, and is not null even
 *     where that length is 0;
 *   - pointers to 64-bit words are aligned for them; the bytes of a job, a
 *     state, a table or a text may start anywhere;
 *   - the areas and the answer do not overlap each other, the job, the second
 *     state, the table or the text;
 *   - the answer has the number of words named at the function: it is an array
 *     of so many, or for checker_run a struct of them.
 *
 * A job, a second state, a table and a text are only read: they may overlap one
 * another (a second state may lie inside the job), and several calls may read
 * them at a time.
 *
 * Lengths of a job, of a state, of a table, of a text and of an output area are
 * counted in bytes, lengths of all other areas in 64-bit words.
 *
 * What the areas hold before a call has no influence on the result. Every word
 * and byte that is not named below as written keeps its contents.
 *
 *
 * BUILDING, THREADS AND STACK
 *
 * The library is for x86-64 Linux, this header for C99 or C++. In the
 * repository, where "rt lib" in crates/checker_c has written the library, this
 * builds an example:
 *
 *   cc -Iinclude examples/release.c -Lcrates/checker_c/out -lchecker_c -o release
 *
 * Rust: examples/checker.rs declares the calls; examples/trace.rs uses them.
 *
 * The library has no data of its own, takes no memory, opens no file, and calls
 * nothing but memcpy and memset of the C library. Any number of threads may
 * call it at a time, each with areas and an answer of its own. A call needs
 * less than 16384 bytes of stack (measured: checker_read_text 6,512 bytes,
 * checker_run 5,632, each other one less than 2,000) and has no deep recursion,
 * whatever the job or the text is.
 *
 * C++: the data() of an empty std::vector may be null, which no call takes. For
 * an area of length 0 lend the address of any object of its type, with the
 * length 0.
 *
 *
 * THE JOB
 *
 * The job is a file as a block of bytes, little-endian, 16 to 16,384 bytes:
 *
 *   offset 0      the program: n instructions, one after the other
 *   offset S      the state: 16 registers, then m memory cells, 8 bytes each
 *   offset Q      the public list: 32 bytes; bit k of byte j is location 8j + k
 *   offset Q + 32 the trailer, 16 bytes: S, Q, n, m, the window w, a zero
 *                 (2 bytes each), the step budget b (4 bytes)
 *
 * Limits: n 1 to 512, m 0 to 240, w 0 to 200, b 0 to 1,000,000.
 *
 * An instruction is a kind byte, then its fields:
 *
 *   0 skip
 *   1 assign              register, expression
 *   2 load                register, address expression
 *   3 store               register, address expression
 *   4 jmp                 expression
 *   5 beqz                register, label of 2 bytes
 *   6 conditional assign  register, condition expression, expression
 *   7 spbarr
 *
 * A register is one byte, 0 to 15. Instructions have the labels 0 to n - 1 in
 * order; n is the end of the routine. An expression is a byte with its token
 * count, 1 to 16, then the tokens in postfix, the left operand first:
 *
 *   0 to 15 a register; 16 a constant, 8 bytes after it; 17 neg, 18 not;
 *   19 add, 20 sub, 21 mul, 22 and, 23 or, 24 xor, 25 shl, 26 shr, 27 eq,
 *   28 ult (unsigned less)
 *
 * All words are unsigned and wrap modulo 2^64. A shift uses its count, the
 * right operand, modulo 64: a shift by 64 gives the left operand. eq and ult
 * give 1 or 0.
 *
 * An address of m or above lies outside memory; loads and stores there are
 * observed too. A store outside memory is remembered, its value with what that
 * depends on, for up to 64 addresses at one time; a later store to a remembered
 * address replaces both. A load outside memory reads what is remembered for its
 * address, and 0 if nothing is. When a wrongly guessed branch is rolled back,
 * what is remembered is restored with the registers and the cells: an address
 * first stored to on that path is forgotten. Every run starts with nothing
 * remembered.
 *
 * A location is a register or a memory cell: register r is location r, memory
 * cell a is location 16 + a. There are 16 + m of them, at most 256.
 *
 *
 * THE WINDOW COSTS
 *
 * Every call with a mispredicting run takes a table of the processor that the
 * routine is meant for: how much of an open branch's window an instruction of
 * each kind takes. The table is eight bytes, one for each kind in the order of
 * the kinds above, from skip to spbarr; each is 1 to 16.
 *
 * A branch that is opened with no other open costs nothing, and its window is
 * w. A branch on a wrongly guessed path lowers the window of the innermost open
 * branch by the entry of beqz, and opens with what remains there. Every other
 * instruction on such a path lowers the window of the innermost open branch by
 * the entry of its kind; only that window changes, and none falls below 0. A
 * barrier leaves 0 whatever its entry is, which must be 1 to 16 all the same. A
 * branch whose window is 0 is rolled back.
 *
 * With eight ones, CHECKER_UNIT_COSTS, every instruction counts alike, and w is
 * a number of instructions. Before they took a table the calls had this one
 * built in; with it they answer as they did.
 *
 *   static const uint8_t costs[CHECKER_KINDS] = CHECKER_UNIT_COSTS;
 *
 * What is said below of two runs holds of runs with the same table. A verdict
 * is one for its table: another table may show more. The plain run has no
 * windows and takes no table.
 *
 *
 * THE AREAS
 *
 * trace  Any length, also 0. It takes observations from the front, two words
 *        each: the kind (CHECKER_START and following), then the value. A length
 *        of L words holds L / 2 observations; an odd last word is never
 *        written. If the run needs more room it stops as "trace full". A step
 *        makes at most two observations, so that 4 * b words always suffice,
 *        and CHECKER_TRACE_WORDS_MAX for every job. Words behind the last
 *        observation keep their contents.
 *
 * end    At least 16 + m + 129 words (385 are enough for every job). After the
 *        call its first 16 + m words are the registers and the cells as they
 *        are at the moment of the stop. The next 129 words are the stores
 *        outside memory that are remembered at that moment: first how many, 0
 *        to 64; then the address and the value of each, side by side, in the
 *        order in which the addresses were first stored to; then zeros. If the
 *        run did not finish, that moment may be inside a wrongly guessed path.
 *        Further words keep their contents.
 *
 * work   At least 4,096 words. After the call its first 4,096 words are 0, so
 *        that nothing of the job stays behind there. Further words keep their
 *        contents.
 *
 * state  At least 128 + 8m bytes. Where checker_test_load makes a new state,
 *        it is written from the front, laid out as in a job. Further bytes
 *        keep their contents.
 *
 * out    Bytes of any length. A text or a program is written from the front if
 *        all of it fits, and is refused otherwise. Further bytes keep their
 *        contents.
 *
 *
 * ROUTINES AS TEXT
 *
 * One instruction at most stands on a line, with its fields in the order of the
 * table above. A line ends at a newline or at the text's end; # starts a
 * remark, which goes on to the end of its line. Lines without instruction have
 * no label. The instruction words are
 *
 *   skip   set   load   store   jmp   beqz   cset   spbarr
 *
 * in the order of the kinds. A register is r0 to r15, a label and a constant is
 * a decimal number below 2^64 without needless leading zero. An operand is a
 * register, a constant, "neg" or "not" before an operand, or two operands round
 * the name of an operator in brackets: (r0 ult r1). Spaces must stand between
 * two words or numbers and may stand anywhere but inside one; no other byte is
 * a blank. Printing puts one space between parts, none just inside brackets,
 * and ends each line with a newline: "load r4 (r3 add 2)".
 *
 *
 * THE SETS
 *
 * A set of locations is four words: location k is in the set if bit k % 64 of
 * word k / 64 is 1; see checker_set_has.
 */
#ifndef CHECKER_H
#define CHECKER_H

#include <stddef.h>
#include <stdint.h>

#ifdef __cplusplus
extern "C" {
#endif

/* The longest job, in bytes. */
#define CHECKER_JOB_BYTES_MAX 16384

/* Kinds of instruction: the bytes of a table of window costs. */
#define CHECKER_KINDS 8

/* The largest entry of a table; the smallest is 1. */
#define CHECKER_COST_MAX 16

/* The initialiser of a table in which every instruction costs 1. */
#define CHECKER_UNIT_COSTS {1, 1, 1, 1, 1, 1, 1, 1}

/* The largest step budget of a job. */
#define CHECKER_BUDGET_MAX 1000000

/* Words of a trace area that is long enough for every job: two observations a
 * step, two words each. */
#define CHECKER_TRACE_WORDS_MAX (4 * CHECKER_BUDGET_MAX)

/* Words of the working area that every run and comparison needs. */
#define CHECKER_WORK_WORDS 4096

/* Addresses outside memory whose stores are remembered at one time. */
#define CHECKER_OUTSIDE_MAX 64

/* Words of the end area behind the registers and the cells: how many stores
 * outside memory are remembered, then 64 times an address and a value. */
#define CHECKER_OUTSIDE_WORDS 129

/* Words of an end area that is long enough for every job: 16 + 240 + 129. */
#define CHECKER_END_WORDS_MAX 385

/* Bytes of an area that is long enough for the new state of every job:
 * 8 * (16 + 240). */
#define CHECKER_STATE_BYTES_MAX 2048

/* Locations that the answer of a run reports on. */
#define CHECKER_LOCATIONS 256

/* Words of the answers of the functions. */
#define CHECKER_RUN_ANSWER_WORDS 781
#define CHECKER_PLAIN_ANSWER_WORDS 7
#define CHECKER_COMPARE_ANSWER_WORDS 9
#define CHECKER_TEST_LOAD_ANSWER_WORDS 10
#define CHECKER_READ_ANSWER_WORDS 2
#define CHECKER_PRINT_ANSWER_WORDS 1

/* Bytes of an output area that is long enough for the program of every text:
 * 512 instructions of at most 292 bytes. */
#define CHECKER_PROGRAM_BYTES_MAX 149504

/* Bytes of an output area that is long enough for the text of every job: no
 * byte of a program is printed as more than seven. */
#define CHECKER_TEXT_BYTES_MAX 114688

/* Why a call was refused; 0 is no refusal. The tests are made in this order and
 * the first that fails gives the number, except that 4, 5 and 6 are all tried
 * on one instruction before the next instruction is read, that 14 is tested
 * directly before 10, and that 13 is tested before 12. */
enum checker_refusal {
    CHECKER_DONE = 0,
    /* The job is shorter than 16 bytes or longer than 16,384. */
    CHECKER_REFUSED_LENGTH = 1,
    /* n, m, w or b is outside its limits, or the trailer's zero is not 0. */
    CHECKER_REFUSED_TRAILER = 2,
    /* S > Q, or Q - S is not 128 + 8m, or Q + 48 is not the job's length. */
    CHECKER_REFUSED_OFFSETS = 3,
    /* Unknown instruction kind or token, register over 15, token count not 1 to
     * 16, or a kind byte or field that does not end before S. */
    CHECKER_REFUSED_INSTRUCTION = 4,
    /* An expression lacks an operand, holds more than 8 values, or does not end
     * with exactly one. */
    CHECKER_REFUSED_EXPRESSION = 5,
    /* The label of a beqz is over n, or is the label of the next instruction. */
    CHECKER_REFUSED_LABEL = 6,
    /* Bytes are left between the last instruction and S. */
    CHECKER_REFUSED_BYTES_LEFT = 7,
    /* The public list has a bit at location 16 + m or above. */
    CHECKER_REFUSED_PUBLIC = 8,
    /* The second state is not 128 + 8m bytes long (checker_compare only). */
    CHECKER_REFUSED_SECOND_STATE = 9,
    /* The working area is shorter than 4,096 words, the end area is shorter
     * than 16 + m + 129 words, or the two trace areas of checker_compare or
     * checker_test_load have different lengths. */
    CHECKER_REFUSED_AREAS = 10,
    /* The text is no routine: a line is outside the grammar above, a constant
     * is 2^64 or more, there is no instruction or more than 512, an expression has
     * more than 16 tokens or holds more than 8 values, or the label of a beqz
     * is over n or is the next one (checker_read_text only). */
    CHECKER_REFUSED_TEXT = 11,
    /* The output area is too short, or fewer than 128 + 8m bytes are lent for
     * the new state; tested last. */
    CHECKER_REFUSED_OUTPUT = 12,
    /* The seed is 0; tested after 10 and before 12 (checker_test_load only). */
    CHECKER_REFUSED_SEED = 13,
    /* The table of window costs is not eight bytes long, or an entry is outside
     * 1 to 16; tested directly before 10, so after 9 (checker_run,
     * checker_compare and checker_test_load only). */
    CHECKER_REFUSED_COSTS = 14
};

/* Why a run stopped. Finished is tested first, then spent, then trace full,
 * then outside full. */
enum checker_stop {
    /* The routine reached its end, and no wrongly guessed branch was open. */
    CHECKER_FINISHED = 0,
    /* b steps were made. */
    CHECKER_SPENT = 1,
    /* The next step's observations did not all fit the trace area; that step
     * was not made. */
    CHECKER_TRACE_FULL = 2,
    /* The next step was a store to a 65th address outside memory; that step was
     * not made. The locations that the address depended on belong to D all the
     * same, and to the plain set if no wrongly guessed branch was open. */
    CHECKER_OUTSIDE_FULL = 3
};

/* What a mispredicting run shows. D is the set of all locations that an
 * observation depended on, and those of the address whose store stopped the run
 * as outside full; the plain set is the part of them from outside every wrongly
 * guessed path. */
enum checker_verdict {
    /* The run did not finish. */
    CHECKER_VERDICT_UNDECIDED = 0,
    /* Every location of D is public. This is the one verdict of no finding. */
    CHECKER_VERDICT_CLEAN = 1,
    /* Some location of D is neither public nor in the plain set. */
    CHECKER_VERDICT_SPECULATIVE = 2,
    /* Some location of D is not public, and all such are in the plain set. */
    CHECKER_VERDICT_PLAIN = 3
};

/* The result of checker_compare: the first of these that fits.
 * checker_test_load gives 1, 3 or 4 alone. */
enum checker_pair_word {
    /* The two states differ at a public location. */
    CHECKER_PAIR_NOT_COMPARABLE = 0,
    /* At least one of the two mispredicting runs did not finish. */
    CHECKER_PAIR_UNDECIDED = 1,
    /* The traces of the two plain runs differ. */
    CHECKER_PAIR_PLAIN_DIFFERS = 2,
    /* The traces of the two mispredicting runs differ. */
    CHECKER_PAIR_LEAK_SHOWN = 3,
    /* The two traces are the same. */
    CHECKER_PAIR_EQUAL = 4
};

/* The kinds of observation, and what the second word of each is. */
enum checker_observation {
    /* A wrongly guessed branch opens; its id, counted from 0. */
    CHECKER_START = 0,
    /* The branch with this id is rolled back. */
    CHECKER_ROLLBACK = 1,
    /* Execution goes on at this label; n is the end of the routine. */
    CHECKER_PC = 2,
    /* A load from this address, which may lie outside memory. */
    CHECKER_LOAD = 3,
    /* A store to this address, which may lie outside memory. */
    CHECKER_STORE = 4
};

/* The rule by which an instruction is observed. */
enum checker_cause {
    /* A beqz, observed as CHECKER_START and then CHECKER_PC. */
    CHECKER_CAUSE_BRANCH = 0,
    /* A jmp, observed as CHECKER_PC. */
    CHECKER_CAUSE_JUMP = 1,
    /* A load, observed as CHECKER_LOAD. */
    CHECKER_CAUSE_LOAD = 2,
    /* A store, observed as CHECKER_STORE; or the store that stopped the run as
     * outside full, which is not observed. */
    CHECKER_CAUSE_STORE = 3
};

/* What brought a location into D: the first observation that depended on it.
 * All words are 0 for a location that is not in D. They may be 0 for one that
 * is: ask D. */
struct checker_first {
    uint64_t index; /* of the observation, counted from 0: that of the start for
                     * a branch, and the number of observations for the store
                     * that stopped the run */
    uint64_t cause; /* enum checker_cause */
    uint64_t label; /* of the instruction */
};

/* checker_run's answer: 781 words. */
struct checker_run_answer {
    uint64_t stop;         /* enum checker_stop */
    uint64_t observations; /* observations written to the trace area */
    uint64_t steps;        /* steps made, rollbacks among them */
    uint64_t rollbacks;    /* rollbacks made */
    uint64_t depends[4];   /* D */
    uint64_t plain[4];     /* the plain set */
    uint64_t verdict;      /* enum checker_verdict */
    struct checker_first firsts[CHECKER_LOCATIONS]; /* by location */
};

/* Static assertions: the words of the structs stand side by side. */
typedef char checker_first_is_3_words
    [sizeof(struct checker_first) == 3 * sizeof(uint64_t) ? 1 : -1];
typedef char checker_run_answer_is_781_words
    [sizeof(struct checker_run_answer)
     == CHECKER_RUN_ANSWER_WORDS * sizeof(uint64_t) ? 1 : -1];

/* Which word of checker_plain_run's answer is what. */
enum checker_plain_answer {
    CHECKER_PLAIN_STOP = 0,         /* enum checker_stop */
    CHECKER_PLAIN_OBSERVATIONS = 1, /* observations written */
    CHECKER_PLAIN_STEPS = 2,        /* steps made */
    CHECKER_PLAIN_SET = 3           /* four words: the plain set */
};

/* Which word of checker_compare's answer is what. */
enum checker_compare_answer {
    CHECKER_COMPARE_WORD = 0,                /* enum checker_pair_word */
    CHECKER_COMPARE_FIRST_STOP = 1,          /* the run of the job's state: */
    CHECKER_COMPARE_FIRST_OBSERVATIONS = 2,  /* as in checker_run's answer */
    CHECKER_COMPARE_FIRST_STEPS = 3,
    CHECKER_COMPARE_FIRST_ROLLBACKS = 4,
    CHECKER_COMPARE_SECOND_STOP = 5,         /* the run of the second state */
    CHECKER_COMPARE_SECOND_OBSERVATIONS = 6,
    CHECKER_COMPARE_SECOND_STEPS = 7,
    CHECKER_COMPARE_SECOND_ROLLBACKS = 8
};

/* Which word of checker_test_load's answer is what. */
enum checker_test_load_answer {
    CHECKER_TEST_LOAD_WORD = 0,                /* enum checker_pair_word */
    CHECKER_TEST_LOAD_OWN_STOP = 1,            /* the run of the job's state: */
    CHECKER_TEST_LOAD_OWN_OBSERVATIONS = 2,    /* as in checker_run's answer */
    CHECKER_TEST_LOAD_OWN_STEPS = 3,
    CHECKER_TEST_LOAD_OWN_ROLLBACKS = 4,
    CHECKER_TEST_LOAD_SECOND_STOP = 5,         /* the run of the new state: */
    CHECKER_TEST_LOAD_SECOND_OBSERVATIONS = 6, /* all 0 where none was made */
    CHECKER_TEST_LOAD_SECOND_STEPS = 7,
    CHECKER_TEST_LOAD_SECOND_ROLLBACKS = 8,
    CHECKER_TEST_LOAD_MADE = 9                 /* 1 if a new state was made and
                                                * run, else 0 */
};

/* Which word of checker_read_text's answer is what. */
enum checker_read_answer {
    CHECKER_READ_BYTES = 0,       /* bytes of the program */
    CHECKER_READ_INSTRUCTIONS = 1 /* its instructions */
};

/* Which word of checker_print_text's answer is what. */
enum checker_print_answer {
    CHECKER_PRINT_BYTES = 0 /* bytes of the text */
};

/*
 * The mispredicting run of a job.
 *
 * job, job_len      the job, in bytes
 * costs, costs_len  the table of window costs: 8 bytes, 1 to 16 each
 * trace, trace_len  the trace area, in words
 * end, end_len      the end area, in words, at least 16 + m + 129
 * work, work_len    the working area, in words, at least 4,096
 * answer            781 words: stop, observations, steps, rollbacks, four words
 *                   of D, four words of the plain set, verdict; then for each
 *                   of 256 locations index, cause and label of the first
 *                   observation that depended on it, 0 if it is not in D
 *
 * Returns 0 or a refusal number (1 to 8, 10 or 14).
 *
 * A second state that holds the same words as the job's state at the locations
 * of D gives, with the same table and in areas of the same lengths, the same
 * answer and the same observations (same program, public list and trailer). It
 * also remembers stores to the same addresses in the same order, and the same
 * value for each whose value depends on locations of D alone. After the verdict
 * "clean" this holds of every state that agrees with the job's at the public
 * locations; other public values are another job.
 */
uint32_t checker_run(const uint8_t *job, size_t job_len,
                     const uint8_t *costs, size_t costs_len,
                     uint64_t *trace, size_t trace_len,
                     uint64_t *end, size_t end_len,
                     uint64_t *work, size_t work_len,
                     struct checker_run_answer *answer);

/*
 * The plain run of a job: no branch is guessed. It is lent the same areas as
 * checker_run, counts its steps against b and stops in the same way. It takes
 * no table of window costs. Its observations are pc, load and store only.
 *
 * answer            7 words: stop, observations, steps, four words of the
 *                   plain set
 *
 * Returns 0 or a refusal number (1 to 8, or 10).
 *
 * If checker_run finishes, with any table, this run finishes in areas of the
 * same lengths, with the same registers, cells and remembered stores and the
 * same plain set; and its trace is that of checker_run without all that stands
 * between each outermost start and its rollback, both of them left out too.
 */
uint32_t checker_plain_run(const uint8_t *job, size_t job_len,
                           uint64_t *trace, size_t trace_len,
                           uint64_t *end, size_t end_len,
                           uint64_t *work, size_t work_len,
                           uint64_t answer[7]);

/*
 * The mispredicting runs of a job with its own state and with a second state.
 *
 * job, job_len         the job, in bytes
 * second, second_len   the second state, laid out as in a job: 16 registers,
 *                      then m cells, 8 bytes each, little-endian
 * costs, costs_len     the table of window costs of both runs: 8 bytes, 1 to 16
 *                      each
 * trace1, trace1_len   the trace area of the run with the job's state
 * trace2, trace2_len   the trace area of the run with the second state; as many
 *                      words as trace1
 * work, work_len       the working area, in words, at least 4,096
 * answer               9 words: the pair word; stop, observations, steps and
 *                      rollbacks of the first run; the same of the second run
 *
 * Both runs are made and both traces written whatever the word is, and each
 * run starts with no store outside memory remembered. There is no end area.
 *
 * Returns 0 or a refusal number (1 to 10, or 14).
 */
uint32_t checker_compare(const uint8_t *job, size_t job_len,
                         const uint8_t *second, size_t second_len,
                         const uint8_t *costs, size_t costs_len,
                         uint64_t *trace1, size_t trace1_len,
                         uint64_t *trace2, size_t trace2_len,
                         uint64_t *work, size_t work_len,
                         uint64_t answer[9]);

/*
 * A test load that can be repeated: the mispredicting runs of a job with its own
 * state and with one that is made from a seed.
 *
 * job, job_len         the job, in bytes
 * seed                 any number but 0; the same seed makes the same state,
 *                      with every table for which the job's own run finishes
 * costs, costs_len     the table of window costs of both runs: 8 bytes, 1 to 16
 *                      each
 * trace1, trace1_len   the trace area of the run with the job's state
 * trace2, trace2_len   the trace area of the run with the new state; as many
 *                      words as trace1
 * work, work_len       the working area, in words, at least 4,096
 * state, state_len     the area for the new state, in bytes, at least 128 + 8m
 * answer               10 words: the pair word; stop, observations, steps and
 *                      rollbacks of the job's own run; the same of the second
 *                      run; 1 if a new state was made and run, else 0
 *
 * If the job's own run finishes, the new state is made: each location that is
 * neither public nor in the plain set of that run takes the next word, lowest
 * location first, and all others keep the job's. The next word is x after
 *
 *   x ^= x << 13; x ^= x >> 7; x ^= x << 17;
 *
 * where x is at first the seed. The new state then stands at the front of its
 * area, and the rest is checker_compare with it and the same table. It has the
 * same plain trace as the job, so that the word is never "not comparable" or
 * "plain differs": a leak that is shown is one of a wrongly guessed path.
 *
 * If the job's own run does not finish, no new state is made: the word is
 * "undecided", the answer holds that run's counts and then zeros, its trace is
 * written, and trace2 and state are left as they were. "Undecided" with a 1 at
 * the end of the answer means that the run of the new state did not finish; the
 * state and both traces are then written.
 *
 * A word that was made is never 0. So the last one of a state, that of its
 * highest location that is neither public nor in the plain set, can be the next
 * seed and goes on with the same sequence; or take seeds of your own, such as
 * 1, 2, 3. A job without such a location has its own state from every seed.
 * examples/batch.c runs 1,000 seeds.
 *
 * Returns 0 or a refusal number (1 to 8, 10, 12, 13 or 14).
 */
uint32_t checker_test_load(const uint8_t *job, size_t job_len,
                           uint64_t seed,
                           const uint8_t *costs, size_t costs_len,
                           uint64_t *trace1, size_t trace1_len,
                           uint64_t *trace2, size_t trace2_len,
                           uint64_t *work, size_t work_len,
                           uint8_t *state, size_t state_len,
                           uint64_t answer[10]);

/*
 * Reads a routine as text.
 *
 * text, text_len  the text, in bytes, of any length
 * out, out_len    the output area, in bytes; the bytes of the program as they
 *                 stand at the front of a job
 * answer          2 words: the bytes of the program and its instructions
 *
 * Returns 0 or a refusal number (11, 12). A program that is too long for a job
 * of 16,384 bytes is read all the same.
 */
uint32_t checker_read_text(const uint8_t *text, size_t text_len,
                           uint8_t *out, size_t out_len,
                           uint64_t answer[2]);

/*
 * Prints the program of a job as text.
 *
 * job, job_len  the job, in bytes
 * out, out_len  the output area, in bytes
 * answer        1 word: the bytes of the text
 *
 * Returns 0 or a refusal number (1 to 8, or 12).
 *
 * Reading the text with checker_read_text restores the program: the S bytes
 * before the job's state, and its n instructions.
 */
uint32_t checker_print_text(const uint8_t *job, size_t job_len,
                            uint8_t *out, size_t out_len,
                            uint64_t answer[1]);

/* 1 if the location is in the set of four words, else 0. */
static inline int checker_set_has(const uint64_t set[4], unsigned location)
{
    return location < 256 && ((set[location / 64] >> (location % 64)) & 1) != 0;
}

#ifdef __cplusplus
}
#endif

#endif
