/* Lists without elements are NULL with length 0, and lists that are lent for writing are not initialised: what C callers pass. Every answer is held to what it should be. */
#include "gofeshan.h"

#include <stdio.h>
#include <stdlib.h>
#include <string.h>

/* Sixty words are ten records of a circuit, twelve of a program. */
enum { WORDS = 60, STEPS = 3 };

static int failed;

static void expect(const char *what, uint64_t number, uint64_t should, const uint64_t *answer, uint64_t a, uint64_t b, uint64_t c) {
    if (number == should && answer[0] == a && answer[1] == b && answer[2] == c)
        return;
    failed = 1;
    printf("%s: %llu; %llu %llu %llu\n", what, (unsigned long long)number, (unsigned long long)answer[0], (unsigned long long)answer[1], (unsigned long long)answer[2]);
}

/* All lists are empty. */
static void nothing(uint64_t *answer) {
    expect("read", gofeshan_read(NULL, 0, NULL, 0, answer, 3), 0, answer, 0, 0, 0);
    expect("write", gofeshan_write(NULL, 0, 0, NULL, 0, answer, 3), 0, answer, 0, 0, 0);
    expect("flatten", gofeshan_flatten(NULL, 0, 0, NULL, 0, answer, 3), 0, answer, 0, 0, 0);
    expect("translate", gofeshan_translate(NULL, 0, 0, NULL, 0, answer, 3), 0, answer, 0, 0, 0);
    expect("run_circuit", gofeshan_run_circuit(NULL, 0, 0, STEPS, NULL, 0, NULL, 0, NULL, 0, NULL, 0, answer, 3), 0, answer, 0, 0, 0);
    expect("run_program", gofeshan_run_program(NULL, 0, 0, STEPS, NULL, 0, NULL, 0, NULL, 0, NULL, 0, answer, 3), 0, answer, 0, 0, 0);
    expect("peek", gofeshan_peek(NULL, 0, 0, 1, 0, NULL, 0, NULL, 0, answer, 3), 18, answer, 0, 0, 0);
    expect("name", gofeshan_name(NULL, 0, 1, answer, 3), 0, answer, 0, 0, 0);
    expect("circuit_to_columns", gofeshan_circuit_to_columns(NULL, 0, 0, NULL, 0, answer, 3), 0, answer, 0, 0, 0);
    expect("circuit_to_records", gofeshan_circuit_to_records(NULL, 0, 0, NULL, 0, answer, 3), 0, answer, 0, 0, 0);
    expect("program_to_columns", gofeshan_program_to_columns(NULL, 0, 0, NULL, 0, answer, 3), 0, answer, 0, 0, 0);
    expect("program_to_records", gofeshan_program_to_records(NULL, 0, 0, NULL, 0, answer, 3), 0, answer, 0, 0, 0);
    expect("circuit_to_columns, a record", gofeshan_circuit_to_columns(NULL, 0, 1, NULL, 0, answer, 3), 11, answer, 0, 0, 0);
    expect("circuit_to_records, a record", gofeshan_circuit_to_records(NULL, 0, 1, NULL, 0, answer, 3), 11, answer, 0, 0, 0);
    expect("program_to_columns, a record", gofeshan_program_to_columns(NULL, 0, 1, NULL, 0, answer, 3), 20, answer, 0, 0, 0);
    expect("program_to_records, a record", gofeshan_program_to_records(NULL, 0, 1, NULL, 0, answer, 3), 20, answer, 0, 0, 0);
}

/* There is no answer list: 1, whatever else is lent. */
static void no_answer(void) {
    uint64_t zeros[3] = {0, 0, 0};
    expect("read, no answer", gofeshan_read(NULL, 0, NULL, 0, NULL, 0), 1, zeros, 0, 0, 0);
    expect("write, no answer", gofeshan_write(NULL, 0, 0, NULL, 0, NULL, 0), 1, zeros, 0, 0, 0);
    expect("flatten, no answer", gofeshan_flatten(NULL, 0, 0, NULL, 0, NULL, 0), 1, zeros, 0, 0, 0);
    expect("translate, no answer", gofeshan_translate(NULL, 0, 0, NULL, 0, NULL, 0), 1, zeros, 0, 0, 0);
    expect("run_circuit, no answer", gofeshan_run_circuit(NULL, 0, 0, STEPS, NULL, 0, NULL, 0, NULL, 0, NULL, 0, NULL, 0), 1, zeros, 0, 0, 0);
    expect("run_program, no answer", gofeshan_run_program(NULL, 0, 0, STEPS, NULL, 0, NULL, 0, NULL, 0, NULL, 0, NULL, 0), 1, zeros, 0, 0, 0);
    expect("peek, no answer", gofeshan_peek(NULL, 0, 0, 1, 0, NULL, 0, NULL, 0, NULL, 0), 1, zeros, 0, 0, 0);
    expect("name, no answer", gofeshan_name(NULL, 0, 1, NULL, 0), 1, zeros, 0, 0, 0);
    expect("circuit_to_columns, no answer", gofeshan_circuit_to_columns(NULL, 0, 0, NULL, 0, NULL, 0), 1, zeros, 0, 0, 0);
    expect("circuit_to_records, no answer", gofeshan_circuit_to_records(NULL, 0, 0, NULL, 0, NULL, 0), 1, zeros, 0, 0, 0);
    expect("program_to_columns, no answer", gofeshan_program_to_columns(NULL, 0, 0, NULL, 0, NULL, 0), 1, zeros, 0, 0, 0);
    expect("program_to_records, no answer", gofeshan_program_to_records(NULL, 0, 0, NULL, 0, NULL, 0), 1, zeros, 0, 0, 0);
}

/* A circuit without states and inputs: the start words, the inputs and the row are NULL. */
static void constant(uint64_t *answer) {
    static const uint8_t text[] = "1 sort bitvec 1\n2 one 1\n3 bad 2\n";
    uint64_t *table = malloc(WORDS * sizeof *table), *flat = malloc(WORDS * sizeof *flat);
    uint64_t *program = malloc(WORDS * sizeof *program), *work = malloc(sizeof *work);
    uint8_t *signals = malloc(STEPS), *written = malloc(WORDS);
    expect("read", gofeshan_read(text, sizeof text - 1, table, WORDS, answer, 3), 0, answer, 3, 0, 0);
    expect("flatten", gofeshan_flatten(table, WORDS, 3, flat, WORDS, answer, 3), 0, answer, 3, 0, 0);
    expect("translate", gofeshan_translate(flat, WORDS, 3, program, WORDS, answer, 3), 0, answer, 2, 0, 0);
    expect("write", gofeshan_write(flat, WORDS, 3, written, WORDS, answer, 3), 0, answer, 37, 0, 0);
    expect("run_circuit", gofeshan_run_circuit(table, WORDS, 3, STEPS, NULL, 0, NULL, 0, signals, STEPS, work, 1, answer, 3), 0, answer, 1, 0, 1);
    expect("run_program", gofeshan_run_program(program, WORDS, 2, STEPS, NULL, 0, NULL, 0, signals, STEPS, work, 1, answer, 3), 0, answer, 1, 0, 1);
    expect("signals", (uint64_t)signals[0] + signals[1] + signals[2] + *work, 3, answer, 1, 0, 1);
    expect("peek", gofeshan_peek(table, WORDS, 3, 2, 0, NULL, 0, NULL, 0, answer, 3), 0, answer, 1, 0, 0);
    expect("run, no work area", gofeshan_run_circuit(table, WORDS, 3, STEPS, NULL, 0, NULL, 0, signals, STEPS, NULL, 0, answer, 3), 17, answer, 0, 0, 0);
    expect("run, no signals", gofeshan_run_circuit(table, WORDS, 3, STEPS, NULL, 0, NULL, 0, NULL, 0, work, 1, answer, 3), 16, answer, 0, 0, 0);
    expect("run, no steps", gofeshan_run_circuit(table, WORDS, 3, 0, NULL, 0, NULL, 0, NULL, 0, work, 1, answer, 3), 0, answer, 0, 0, 0);
    expect("read, no room", gofeshan_read(text, sizeof text - 1, NULL, 0, answer, 3), 4, answer, 1, 0, 0);
    free(table), free(flat), free(program), free(work), free(signals), free(written);
}

/* Two records to columns and back, through lists that are not initialised; the other list is NULL where nothing is carried over. */
static void converted(uint64_t *answer) {
    static const uint64_t records[12] = {1, 0, 1, 0, 0, 5, 4, 1, 0, 0, 0, 9};
    uint64_t *table = malloc(WORDS * sizeof *table), *back = malloc(12 * sizeof *back);
    expect("to columns", gofeshan_circuit_to_columns(records, 12, 2, table, WORDS, answer, 3), 0, answer, 2, 0, 0);
    expect("columns", table[0] == 1 && table[1] == 4 && table[11] == 1 && table[20] == 1 && table[50] == 5 && table[51] == 9, 1, answer, 2, 0, 0);
    expect("to records", gofeshan_circuit_to_records(table, WORDS, 2, back, 12, answer, 3), 0, answer, 2, 0, 0);
    expect("records", (uint64_t)memcmp(records, back, sizeof records), 0, answer, 2, 0, 0);
    expect("no target", gofeshan_circuit_to_records(table, WORDS, 2, NULL, 0, answer, 3), 12, answer, 0, 0, 0);
    expect("no list", gofeshan_program_to_columns(NULL, 0, 0, table, WORDS, answer, 3), 0, answer, 0, 0, 0);
    free(table), free(back);
}

int main(void) {
    uint64_t *answer = malloc(3 * sizeof *answer);
    nothing(answer);
    no_answer();
    constant(answer);
    converted(answer);
    free(answer);
    return failed;
}
