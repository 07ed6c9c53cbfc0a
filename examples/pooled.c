/*
 * Calls the engine from C: a worked session, command by command and as a file, then an example
 * session. From the repository's root:
 *
 *     tools/build dinglefork
 *     cc -std=c99 -Iinclude -o target/pooled_c examples/pooled.c target/staticlib/libdinglefork.a
 *     target/pooled_c
 *
 * include/dinglefork.h says what each call is lent, writes and answers. The tapes here are fixed:
 * never use fixed tapes for real figures.
 */
#include <stdio.h>
#include <stdlib.h>

#include "dinglefork.h"

#define LENGTH_OF(list) (sizeof(list) / sizeof((list)[0]))

/* 7 and 5 are stored and multiplied, and the product is opened. */
static const uint32_t commands[] = {
    DINGLEFORK_STORE, 0, 0,
    DINGLEFORK_STORE, 0, 0,
    DINGLEFORK_MULTIPLY, 1, 2,
    DINGLEFORK_OPEN, 3, 0
};
static const uint32_t inputs[] = {7, 5};
static const uint32_t provider[] = {1, 2, 3, 4};
static const uint32_t tape1[] = {10, 20, 70};
static const uint32_t tape2[] = {30, 40, 80};
static const uint32_t tape3[] = {50, 60, 90};

static const dinglefork_tapes tapes = {
    {provider, LENGTH_OF(provider)},
    {tape1, LENGTH_OF(tape1)},
    {tape2, LENGTH_OF(tape2)},
    {tape3, LENGTH_OF(tape3)}
};

/* Room that is enough for every session, one after the other. */
static uint32_t words[DINGLEFORK_WORDS];
static uint32_t entries[4][DINGLEFORK_ENTRIES];
static uint32_t received[4][DINGLEFORK_RECEIVED];

static dinglefork_tables tables = {
    {entries[0], DINGLEFORK_ENTRIES},
    {entries[1], DINGLEFORK_ENTRIES},
    {entries[2], DINGLEFORK_ENTRIES},
    {entries[3], DINGLEFORK_ENTRIES}
};
static dinglefork_lists lists = {
    {received[0], DINGLEFORK_RECEIVED},
    {received[1], DINGLEFORK_RECEIVED},
    {received[2], DINGLEFORK_RECEIVED},
    {received[3], DINGLEFORK_RECEIVED}
};

/* Does a command and prints what it answers. Answers the place record for the next command. */
static dinglefork_place run_command(const uint32_t command[3], dinglefork_place place) {
    uint32_t code = command[0], a = command[1], b = command[2];
    dinglefork_answer answer = dinglefork_command(
        code, a, b, &place, &tables, inputs, LENGTH_OF(inputs), &tapes, &lists);
    printf("%u %u %u ", (unsigned)code, (unsigned)a, (unsigned)b);
    if (answer.number != DINGLEFORK_ACCEPTED) {
        uint8_t text[DINGLEFORK_REFUSAL_TEXT];
        dinglefork_refusal(answer.number, text);
        printf("%s\n", (const char *)text);
    } else if (code == DINGLEFORK_OPEN) {
        printf("opened %u\n", (unsigned)answer.opened);
    } else {
        printf("handle %u\n", (unsigned)answer.place.handles);
    }
    return answer.place;
}

static void run_commands(void) {
    /* No handle 9 is filled, so that this one is refused and changes nothing. */
    const uint32_t wrong[3] = {DINGLEFORK_MULTIPLY, 1, 9};
    dinglefork_place place = {0, 0, {0, 0, 0, 0}, {0, 0, 0, 0}};
    size_t i;
    for (i = 0; i < LENGTH_OF(commands); i += 3) {
        place = run_command(commands + i, place);
    }
    place = run_command(wrong, place);
    printf("miner 1 received");
    for (i = 0; i < place.received.one; i++) {
        printf(" %u", (unsigned)received[0][i]);
    }
    printf("\n");
}

/* Prints the text of a session file, as the program `pool` does. */
static void print_session(const uint8_t *file, size_t length) {
    uint8_t text[DINGLEFORK_TEXT];
    size_t text_length = dinglefork_pool(
        file, length, words, DINGLEFORK_WORDS, &tables, &lists, text);
    fwrite(text, 1, text_length, stdout);
}

/* Writes a word as four bytes, lowest first. Answers where the next one goes. */
static uint8_t *put_word(uint8_t *at, uint32_t word) {
    int i;
    for (i = 0; i < 4; i++) {
        at[i] = (uint8_t)(word >> (8 * i));
    }
    return at + 4;
}

/* Writes the worked session's file: each body's start and count, then the bodies. */
static size_t write_sheet(uint8_t *file) {
    const dinglefork_tape bodies[] = {
        {commands, LENGTH_OF(commands)},
        {inputs, LENGTH_OF(inputs)},
        tapes.provider, tapes.tape1, tapes.tape2, tapes.tape3
    };
    uint32_t start = DINGLEFORK_CONTENTS;
    uint8_t *at = file;
    size_t i, j;
    for (i = 0; i < LENGTH_OF(bodies); i++) {
        at = put_word(at, start);
        at = put_word(at, (uint32_t)bodies[i].length);
        start += (uint32_t)bodies[i].length;
    }
    for (i = 0; i < LENGTH_OF(bodies); i++) {
        for (j = 0; j < bodies[i].length; j++) {
            at = put_word(at, bodies[i].words[j]);
        }
    }
    return (size_t)(at - file);
}

/* Reads a file up to a byte beyond the limit, which shows that it is over the limit. */
static size_t read_file(const char *path, uint8_t *file) {
    FILE *opened = fopen(path, "rb");
    size_t length = 0;
    if (opened != NULL) {
        length = fread(file, 1, DINGLEFORK_BYTES + 1, opened);
    }
    if (opened == NULL || ferror(opened)) {
        perror(path);
        exit(1);
    }
    fclose(opened);
    return length;
}

int main(void) {
    static uint8_t file[DINGLEFORK_BYTES + 1];
    unsigned version = (unsigned)dinglefork_version();
    if (version != DINGLEFORK_VERSION) {
        fprintf(stderr, "the library is not of the header's version\n");
        return 1;
    }
    printf("dinglefork %u.%u.%u\n", version / 10000, version / 100 % 100, version % 100);
    printf("worked session, command by command:\n");
    run_commands();
    printf("worked session, as a file:\n");
    print_session(file, write_sheet(file));
    printf("stumbles_times_hours:\n");
    print_session(file, read_file("examples/stumbles_times_hours.session", file));
    if (fflush(stdout) != 0 || ferror(stdout)) {
        perror("standard output");
        return 1;
    }
    return 0;
}
