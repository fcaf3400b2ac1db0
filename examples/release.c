/*
 * release.c: decides by a job file whether a routine may be released.
 *
 *   release JOB.mua [COSTS]
 *
 * Prints the verdict, the counts, for each register and cell that an observation
 * depended on which one that was first, the first observations of the
 * mispredicting run, and the first of the stores outside memory that it remembers
 * at its stop, each with address and value.
 *
 * COSTS says how much of a branch's window an instruction of each kind takes:
 * eight numbers, such as 1,1,4,1,1,2,1,1, in the order skip, set, load, store,
 * jmp, beqz, cset, spbarr. Without it every instruction takes 1.
 *
 * The exit status is 0 if the verdict is clean, 1 if it is another one, and 2 if
 * the job or the table is refused, the file cannot be read or COSTS is not eight
 * numbers.
 *
 * It takes no memory at run time: everything that the checker needs is lent to
 * it from the static areas below.
 */
#include <inttypes.h>
#include <stdio.h>
#include <stdlib.h>

#include "checker.h"

enum {
    OBSERVATIONS_LENT = 65536,
    OBSERVATIONS_SHOWN = 20,
    STORES_SHOWN = 4,
    EXIT_CLEAN = 0,
    EXIT_NOT_CLEAN = 1,
    EXIT_NO_ANSWER = 2
};

/* One byte more than the longest job, so that a longer file is seen as such. */
static uint8_t job[CHECKER_JOB_BYTES_MAX + 1];
static size_t job_len;
static uint8_t costs[CHECKER_KINDS] = CHECKER_UNIT_COSTS;
static uint64_t trace[2 * OBSERVATIONS_LENT];
static uint64_t end[CHECKER_END_WORDS_MAX];
static uint64_t work[CHECKER_WORK_WORDS];
static struct checker_run_answer answer;

static const char *const stops[] = {"finished", "spent", "trace full", "outside full"};
static const char *const verdicts[] = {"undecided", "clean", "speculative", "plain"};
static const char *const causes[] = {"branch", "jump", "load", "store"};
static const char *const kinds[] = {"start", "rollback", "pc", "load", "store"};

/* Reads the file into the job area; 1 if it could be read. */
static int read_job(const char *path)
{
    FILE *file = fopen(path, "rb");
    if (file == NULL) {
        return 0;
    }
    job_len = fread(job, 1, sizeof job, file);
    int readable = ferror(file) == 0;
    fclose(file);
    return readable;
}

/* Reads eight decimal numbers with commas between them into the table; 1 if the
 * text is that and each fits a byte. Whether they are costs the checker tells. */
static int read_costs(const char *text)
{
    for (int kind = 0; kind < CHECKER_KINDS; kind++) {
        char *rest;
        unsigned long cost = strtoul(text, &rest, 10);
        char after = kind + 1 < CHECKER_KINDS ? ',' : '\0';
        if (text[0] < '0' || text[0] > '9' || cost > UINT8_MAX || *rest != after) {
            return 0;
        }
        costs[kind] = (uint8_t)cost;
        text = rest + 1;
    }
    return 1;
}

static void print_location(unsigned location)
{
    if (location < 16) {
        printf(" r%u", location);
    } else {
        printf(" m%u", location - 16);
    }
}

static void print_set(const char *name, const uint64_t set[4])
{
    printf("%s", name);
    for (unsigned location = 0; location < CHECKER_LOCATIONS; location++) {
        if (checker_set_has(set, location)) {
            print_location(location);
        }
    }
    printf("\n");
}

/* For each location of D the observation that brought it in: its index, the rule
 * and the label of the instruction. */
static void print_firsts(void)
{
    for (unsigned location = 0; location < CHECKER_LOCATIONS; location++) {
        if (checker_set_has(answer.depends, location)) {
            const struct checker_first *first = &answer.firsts[location];
            printf("first");
            print_location(location);
            printf(" %" PRIu64 " %s %" PRIu64 "\n", first->index, causes[first->cause], first->label);
        }
    }
}

static void print_observations(uint64_t count)
{
    uint64_t shown = count < OBSERVATIONS_SHOWN ? count : OBSERVATIONS_SHOWN;
    for (uint64_t i = 0; i < shown; i++) {
        printf("  %s %" PRIu64 "\n", kinds[trace[2 * i]], trace[2 * i + 1]);
    }
    if (shown < count) {
        printf("  and %" PRIu64 " more\n", count - shown);
    }
}

/* The stores outside memory, which stand in the end area behind the 16 registers
 * and the m cells. The job was not refused, so m stands 10 bytes before its end. */
static void print_stores(void)
{
    size_t cells = job[job_len - 10] + 256u * job[job_len - 9];
    const uint64_t *table = end + 16 + cells;
    uint64_t shown = table[0] < STORES_SHOWN ? table[0] : STORES_SHOWN;
    printf("outside %" PRIu64 "\n", table[0]);
    for (uint64_t i = 0; i < shown; i++) {
        printf("  %" PRIu64 " holds %" PRIu64 "\n", table[1 + 2 * i], table[2 + 2 * i]);
    }
    if (shown < table[0]) {
        printf("  and %" PRIu64 " more\n", table[0] - shown);
    }
}

static void print_answer(void)
{
    printf("verdict %s\n", verdicts[answer.verdict]);
    printf("stop %s\n", stops[answer.stop]);
    printf("steps %" PRIu64 "\n", answer.steps);
    printf("rollbacks %" PRIu64 "\n", answer.rollbacks);
    print_set("depends", answer.depends);
    print_set("plain", answer.plain);
    print_firsts();
    printf("observations %" PRIu64 "\n", answer.observations);
    print_observations(answer.observations);
    print_stores();
}

int main(int argc, char **argv)
{
    if (argc < 2 || argc > 3) {
        fprintf(stderr, "usage: release JOB.mua [COSTS]\n");
        return EXIT_NO_ANSWER;
    }
    if (argc > 2 && !read_costs(argv[2])) {
        fprintf(stderr, "%s: not eight numbers with commas between them\n", argv[2]);
        return EXIT_NO_ANSWER;
    }
    if (!read_job(argv[1])) {
        fprintf(stderr, "cannot read %s\n", argv[1]);
        return EXIT_NO_ANSWER;
    }
    uint32_t refused = checker_run(job, job_len, costs, sizeof costs,
                                   trace, sizeof trace / sizeof trace[0],
                                   end, sizeof end / sizeof end[0],
                                   work, sizeof work / sizeof work[0],
                                   &answer);
    if (refused != CHECKER_DONE) {
        printf("refused %" PRIu32 "\n", refused);
        return EXIT_NO_ANSWER;
    }
    print_answer();
    return answer.verdict == CHECKER_VERDICT_CLEAN ? EXIT_CLEAN : EXIT_NOT_CLEAN;
}
