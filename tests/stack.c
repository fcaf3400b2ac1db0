/*
 * stack.c: how much stack the calls of the static library take.
 *
 *   stack MOST
 *
 * Makes each call on a thread whose stack was filled with a pattern, on routines that reach every function below it: all kinds of
 * instruction, the deepest operands that are accepted and deeper ones, refusals. Prints the most bytes that a call has changed, less
 * what a thread changes that makes none. The exit status is 0 if each is at most MOST, and 1 otherwise.
 */
#define _GNU_SOURCE /* pthread_attr_setstack */
#include <inttypes.h>
#include <pthread.h>
#include <stdio.h>
#include <stdlib.h>
#include <string.h>

#include "checker.h"

enum { STACK_BYTES = 1 << 20, PATTERN = 0xa5, CELLS = 2, WINDOW = 20, BUDGET = 1000, REGISTERS = 16 };

static _Alignas(4096) uint8_t stack[STACK_BYTES];
static uint8_t job[CHECKER_JOB_BYTES_MAX];
static size_t job_len;
static const char *text;
static const uint8_t costs[CHECKER_KINDS] = CHECKER_UNIT_COSTS;
static uint64_t trace1[4 * BUDGET];
static uint64_t trace2[4 * BUDGET];
static uint64_t end[CHECKER_END_WORDS_MAX];
static uint64_t work[CHECKER_WORK_WORDS];
static uint8_t state[CHECKER_STATE_BYTES_MAX];
static uint8_t out[CHECKER_PROGRAM_BYTES_MAX];
static struct checker_run_answer run_answer;
static uint64_t words[CHECKER_TEST_LOAD_ANSWER_WORDS];
static uint32_t result;

#define WORDS(area) area, sizeof(area) / sizeof((area)[0])

static void *nothing(void *unused)
{
    return unused;
}

static void *call_run(void *unused)
{
    result = checker_run(job, job_len, costs, sizeof costs, WORDS(trace1), WORDS(end), WORDS(work), &run_answer);
    return unused;
}

static void *call_plain_run(void *unused)
{
    result = checker_plain_run(job, job_len, WORDS(trace1), WORDS(end), WORDS(work), words);
    return unused;
}

static void *call_compare(void *unused)
{
    size_t state_len = 8 * (REGISTERS + CELLS);
    const uint8_t *own = job_len > state_len + 48 ? job + job_len - 48 - state_len : job;
    result = checker_compare(job, job_len, own, state_len, costs, sizeof costs, WORDS(trace1), WORDS(trace2), WORDS(work), words);
    return unused;
}

static void *call_test_load(void *unused)
{
    result = checker_test_load(job, job_len, 1, costs, sizeof costs, WORDS(trace1), WORDS(trace2), WORDS(work), state, sizeof state, words);
    return unused;
}

static void *call_read_text(void *unused)
{
    result = checker_read_text((const uint8_t *)text, strlen(text), out, sizeof out, words);
    return unused;
}

static void *call_print_text(void *unused)
{
    result = checker_print_text(job, job_len, out, sizeof out, words);
    return unused;
}

/* How many bytes of its stack a thread with this function has changed. */
static size_t changed_by(void *(*function)(void *))
{
    pthread_t thread;
    pthread_attr_t attributes;
    memset(stack, PATTERN, sizeof stack);
    if (pthread_attr_init(&attributes) != 0 || pthread_attr_setstack(&attributes, stack, sizeof stack) != 0 ||
        pthread_create(&thread, &attributes, function, NULL) != 0 || pthread_join(thread, NULL) != 0) {
        fprintf(stderr, "no thread\n");
        exit(2);
    }
    size_t untouched = 0;
    while (untouched < sizeof stack && stack[untouched] == PATTERN) {
        untouched++;
    }
    return sizeof stack - untouched;
}

static void put_number(size_t at, unsigned number, int bytes)
{
    for (int i = 0; i < bytes; i++) {
        job[at + i] = (uint8_t)(number >> 8 * i);
    }
}

/* The job of the routine, or no bytes if it is refused: its program, a state of zeros, nothing public, the trailer. */
static void make_job(void)
{
    job_len = 0;
    call_read_text(NULL);
    if (result != CHECKER_DONE) {
        return;
    }
    size_t program = words[CHECKER_READ_BYTES];
    size_t list = program + 8 * (REGISTERS + CELLS);
    memset(job, 0, sizeof job);
    memcpy(job, out, program);
    put_number(list + 32, (unsigned)program, 2);
    put_number(list + 34, (unsigned)list, 2);
    put_number(list + 36, (unsigned)words[CHECKER_READ_INSTRUCTIONS], 2);
    put_number(list + 38, CELLS, 2);
    put_number(list + 40, WINDOW, 2);
    put_number(list + 44, BUDGET, 4);
    job_len = list + 48;
}

static const char *const routines[] = {
    "skip\nset r1 (r0 add 1)\nload r2 r1\nstore r2 (r1 add 5)\nbeqz r0 7\nspbarr\nload r3 9\ncset r4 (r1 ult r2) (r2 mul 3)\njmp (r1 add 8)\nskip\n",
    "beqz r0 3\nbeqz r1 3\nstore r0 7\nload r2 7\nset r3 ((r1 shl 2) xor not neg (r2 shr 1))\nspbarr\n",
    /* the deepest operands of 16 tokens, and one level more */
    "set r1 not not not not not not not not not not not not not not not r0\nload r1 neg (((((((r0 add r0) add r0) add r0) add r0) add r0) add r0) add r0)\n"
    "cset r1 neg (r0 sub (r0 sub (r0 sub (r0 sub (r0 sub (r0 sub (r0 sub r0))))))) (r1 mul (r1 mul (r1 mul (r1 mul (r1 mul (r1 mul (r1 mul r1)))))))\n"
    "store r1 neg (r1 sub neg (r1 sub neg (r1 sub neg (r1 sub neg (r1 sub r0)))))\n",
    "set r1 not not not not not not not not not not not not not not not not not r0\n",
    "set r1 ((((((((((((((((((((r0 add r0\n",
    "skip\n# a remark\nskip skip\n",
};

int main(int argc, char **argv)
{
    static const struct {
        const char *name;
        void *(*function)(void *);
    } calls[] = {
        {"checker_run", call_run},
        {"checker_plain_run", call_plain_run},
        {"checker_compare", call_compare},
        {"checker_test_load", call_test_load},
        {"checker_read_text", call_read_text},
        {"checker_print_text", call_print_text},
    };
    size_t most = argc == 2 ? strtoul(argv[1], NULL, 10) : 0;
    size_t empty = changed_by(nothing);
    int failed = most == 0;
    for (size_t i = 0; i < sizeof calls / sizeof calls[0]; i++) {
        size_t largest = 0;
        unsigned done = 0;
        for (size_t k = 0; k < sizeof routines / sizeof routines[0]; k++) {
            text = routines[k];
            make_job();
            size_t changed = changed_by(calls[i].function) - empty;
            largest = changed > largest ? changed : largest;
            done += result == CHECKER_DONE;
        }
        printf("%s: %zu bytes of stack; %u of %zu calls carried out\n", calls[i].name, largest, done, sizeof routines / sizeof routines[0]);
        failed |= largest > most || done == 0;
    }
    return failed;
}
