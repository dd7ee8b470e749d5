/* Reads the circuit below, whose ids have a gap, flattens it and prints the flat text; then runs it and its program,
 * peeks at values and looks at a record.
 *
 *     (cd crates/exports && rt lib)
 *     cc -O2 -Iinclude examples/c/example.c crates/exports/out/libexports.a -o example && ./example
 */
#include "gofeshan.h"

#include <stdio.h>
#include <string.h>

/* A circuit's record has six words, a program's five; a list has a column for each, RECORDS words long. */
enum { RECORDS = 1000, WORDS = 6 * RECORDS, PROGRAM_WORDS = 5 * RECORDS, BYTES = 65536, STEPS = 3 };

static uint64_t circuit[WORDS], flat[WORDS], program[PROGRAM_WORDS], records[WORDS], work[WORDS], answer[3];
static uint8_t text[BYTES];

static const char *example =
    "1 sort bitvec 1\n"
    "2 sort bitvec 3\n"
    "3 sort array 1 2\n"
    "4 state 3 cells\n"
    "5 input 1\n"
    "6 constd 2 5\n"
    "7 write 3 4 5 6\n"
    "8 next 3 4 7\n"
    "9 read 2 4 5\n"
    "20 eq 1 9 6\n"
    "21 bad 20 five\n";

static int refused(const char *operation, uint64_t number) {
    if (number)
        printf("%s: refused %llu %llu\n", operation, (unsigned long long)number, (unsigned long long)answer[0]);
    return number != 0;
}

static void print_run(const char *of, const uint8_t *signals) {
    printf("; %s: signals %d %d %d", of, signals[0], signals[1], signals[2]);
    if (answer[0])
        printf(", first counted bad: step %llu, place %llu\n", (unsigned long long)answer[1], (unsigned long long)answer[2]);
    else
        printf(", no counted bad\n");
}

int main(void) {
    const uint8_t *source = (const uint8_t *)example;
    size_t length = strlen(example);
    if (refused("read", gofeshan_read(source, length, circuit, WORDS, answer, 3)))
        return 1;
    size_t count = answer[0];
    if (refused("flatten", gofeshan_flatten(circuit, WORDS, count, flat, WORDS, answer, 3)))
        return 1;
    size_t flat_count = answer[0];
    if (refused("write", gofeshan_write(flat, WORDS, flat_count, text, BYTES, answer, 3)))
        return 1;
    fwrite(text, 1, answer[0], stdout);
    if (refused("translate", gofeshan_translate(flat, WORDS, flat_count, program, PROGRAM_WORDS, answer, 3)))
        return 1;
    size_t program_count = answer[0];

    /* Three steps: two state cells that start at 0, inputs 0 0 1. */
    uint64_t starts[2] = {0, 0}, inputs[STEPS] = {0, 0, 1};
    uint8_t signals[STEPS];
    if (refused("run", gofeshan_run_circuit(circuit, WORDS, count, STEPS, starts, 2, inputs, STEPS, signals, STEPS, work, WORDS, answer, 3)))
        return 1;
    print_run("circuit", signals);
    if (refused("run", gofeshan_run_program(program, PROGRAM_WORDS, program_count, STEPS, starts, 2, inputs, STEPS, signals, STEPS, work, WORDS, answer, 3)))
        return 1;
    print_run("program", signals);

    /* Record 7 is the array with 5 written to the cell that the input names: its cell 1 at step 0, for the input 1. */
    uint64_t row[1] = {1};
    if (refused("peek", gofeshan_peek(circuit, WORDS, count, 7, 1, starts, 2, row, 1, answer, 3)))
        return 1;
    printf("; cell 1 of record 7: %llu\n", (unsigned long long)answer[0]);

    /* A peek goes by the record's place, a name by the id as written, which stands in the sixth column. */
    if (refused("peek", gofeshan_peek(circuit, WORDS, count, 10, 0, starts, 2, row, 1, answer, 3)))
        return 1;
    uint64_t id = circuit[RECORDS * 5 + (11 - 1)];
    printf("; record 10, the eq: %llu; record 11 has the id %llu\n", (unsigned long long)answer[0], (unsigned long long)id);
    if (refused("name", gofeshan_name(source, length, id, answer, 3)))
        return 1;
    printf("; the bad line's name: %.*s\n", (int)answer[1], example + answer[0]);

    /* One behind the other, the words of a record are neighbours. */
    if (refused("to records", gofeshan_circuit_to_records(circuit, WORDS, count, records, WORDS, answer, 3)))
        return 1;
    printf("; record 7:");
    for (size_t j = 0; j < 6; j++)
        printf(" %llu", (unsigned long long)records[6 * (7 - 1) + j]);
    printf("\n");
    return 0;
}
