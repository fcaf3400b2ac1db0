/*
 * batch.c: tries a routine with many test loads that can be repeated.
 *
 *   batch JOB.mua [SEEDS] [SEED]
 *
 * Compares the job's own state with 1,000 new ones, or with as many as SEEDS
 * says, and counts what the comparisons give. The first is made from the seed 1
 * or SEED, each further one from the last new word of the state before it (that
 * of its highest location that is neither public nor in the plain set). The
 * first seed S that showed a leak is printed; "batch JOB.mua 1 S" repeats it.
 *
 * The exit status is 0 if no leak was shown and no load was undecided, 1 if a
 * leak was shown, and 2 if there is no answer: the job is refused or cannot be
 * read, its own run is unfinished, or loads were undecided and none leaked.
 *
 * A batch without a leak is no proof, and leaks of the plain run are not found:
 * its trace is the same in every load. The verdict of checker_run is a proof:
 * "clean" covers every state with the same public words.
 *
 * Every instruction takes 1 of the window: the table of window costs is that of
 * eight ones. Write the processor's numbers there if they were measured.
 *
 * It takes no memory at run time: everything that the checker needs is lent to
 * it from the static areas below.
 */
#include <errno.h>
#include <inttypes.h>
#include <stdio.h>
#include <stdlib.h>

#include "checker.h"

enum {
    OBSERVATIONS_LENT = 65536,
    SEEDS = 1000,
    NO_LOCATION = -1,
    EXIT_NO_LEAK = 0,
    EXIT_LEAK = 1,
    EXIT_NO_ANSWER = 2
};

/* One byte more than the longest job, so that a longer file is seen as such. */
static uint8_t job[CHECKER_JOB_BYTES_MAX + 1];
static size_t job_len;
static const uint8_t costs[CHECKER_KINDS] = CHECKER_UNIT_COSTS;
/* The run and each load have trace areas of the same length. */
static uint64_t trace1[2 * OBSERVATIONS_LENT];
static uint64_t trace2[2 * OBSERVATIONS_LENT];
static uint64_t end[CHECKER_END_WORDS_MAX];
static uint64_t work[CHECKER_WORK_WORDS];
static uint8_t state[CHECKER_STATE_BYTES_MAX];

static const char *const stops[] = {"finished", "spent", "trace full", "outside full"};

/* Reads the file into the job area; 1 if it could be read. */
static int read_job(const char *path)
{
    FILE *file = fopen(path, "rb");
    if (file == NULL) {
        return 0;
    }
    job_len = fread(job, 1, sizeof job, file);
    int readable = ferror(file) == 0;
    fclose(file);
    return readable;
}

/* Reads a decimal number below 2^64; 1 if the text is one. */
static int read_number(const char *text, uint64_t *number)
{
    char *rest;
    errno = 0;
    *number = strtoull(text, &rest, 10);
    return text[0] >= '0' && text[0] <= '9' && *rest == '\0' && errno == 0;
}

/* The highest location that takes a new word: neither public nor in the plain
 * set. The job was not refused, so its last 48 bytes are public list and
 * trailer. */
static int last_new_location(const uint64_t plain[4])
{
    const uint8_t *public_list = job + job_len - 48;
    const uint8_t *trailer = job + job_len - 16;
    int cells = trailer[6] + 256 * trailer[7];
    for (int location = 16 + cells - 1; location >= 0; location--) {
        int is_public = (public_list[location / 8] >> (location % 8)) & 1;
        if (!is_public && !checker_set_has(plain, (unsigned)location)) {
            return location;
        }
    }
    return NO_LOCATION;
}

/* The word of the new state at a location. */
static uint64_t state_word(int location)
{
    uint64_t word = 0;
    for (int byte = 7; byte >= 0; byte--) {
        word = word << 8 | state[8 * location + byte];
    }
    return word;
}

/* Makes the loads one after the other and prints what was counted. */
static int run_loads(uint64_t loads, uint64_t seed, int last_location)
{
    uint64_t counts[5] = {0}; /* by enum checker_pair_word */
    uint64_t first_leak = 0;  /* no seed is 0 */
    for (uint64_t i = 0; i < loads; i++) {
        uint64_t answer[CHECKER_TEST_LOAD_ANSWER_WORDS];
        uint32_t refused = checker_test_load(job, job_len, seed, costs, sizeof costs,
                                             trace1, sizeof trace1 / sizeof trace1[0],
                                             trace2, sizeof trace2 / sizeof trace2[0],
                                             work, sizeof work / sizeof work[0],
                                             state, sizeof state,
                                             answer);
        if (refused != CHECKER_DONE) {
            printf("refused %" PRIu32 "\n", refused);
            return EXIT_NO_ANSWER;
        }
        uint64_t word = answer[CHECKER_TEST_LOAD_WORD];
        counts[word]++;
        if (word == CHECKER_PAIR_LEAK_SHOWN && first_leak == 0) {
            first_leak = seed;
        }
        if (last_location != NO_LOCATION) {
            seed = state_word(last_location);
        }
    }
    printf("loads %" PRIu64 "\n", loads);
    printf("leaks %" PRIu64 "\n", counts[CHECKER_PAIR_LEAK_SHOWN]);
    printf("equal %" PRIu64 "\n", counts[CHECKER_PAIR_EQUAL]);
    printf("undecided %" PRIu64 "\n", counts[CHECKER_PAIR_UNDECIDED]);
    if (first_leak != 0) {
        printf("first leak at seed %" PRIu64 "\n", first_leak);
        return EXIT_LEAK;
    }
    return counts[CHECKER_PAIR_UNDECIDED] == 0 ? EXIT_NO_LEAK : EXIT_NO_ANSWER;
}

int main(int argc, char **argv)
{
    struct checker_run_answer answer;
    uint64_t loads = SEEDS;
    uint64_t seed = 1;
    if (argc < 2 || argc > 4 || (argc > 2 && !read_number(argv[2], &loads)) || loads == 0 ||
        (argc > 3 && !read_number(argv[3], &seed))) {
        fprintf(stderr, "usage: batch JOB.mua [SEEDS] [SEED]\n");
        return EXIT_NO_ANSWER;
    }
    if (!read_job(argv[1])) {
        fprintf(stderr, "cannot read %s\n", argv[1]);
        return EXIT_NO_ANSWER;
    }
    uint32_t refused = checker_run(job, job_len, costs, sizeof costs,
                                   trace1, sizeof trace1 / sizeof trace1[0],
                                   end, sizeof end / sizeof end[0],
                                   work, sizeof work / sizeof work[0],
                                   &answer);
    if (refused != CHECKER_DONE) {
        printf("refused %" PRIu32 "\n", refused);
        return EXIT_NO_ANSWER;
    }
    if (answer.stop != CHECKER_FINISHED) {
        printf("own run unfinished, %s: no new state is made\n", stops[answer.stop]);
        return EXIT_NO_ANSWER;
    }
    int last_location = last_new_location(answer.plain);
    if (last_location == NO_LOCATION) {
        printf("no location takes a new word: every seed gives the job's own state\n");
        loads = 1;
    }
    return run_loads(loads, seed, last_location);
}
