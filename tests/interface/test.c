/*
 * The calls through the C header: the worked session, an example of each refusal, empty lists, and
 * the texts of refusals. Valid C99 and C++.
 */
#include <stdio.h>
#include <string.h>

#include "../../include/dinglefork.h"

#define LENGTH_OF(list) (sizeof(list) / sizeof((list)[0]))
#define CHECK(condition) check((condition), #condition, __LINE__)

#ifdef __cplusplus
#define LANGUAGE "C++"
#else
#define LANGUAGE "C"
#endif

static int failures;

static void check(int holds, const char *condition, int line) {
    if (!holds) {
        fprintf(stderr, "line %d: %s\n", line, condition);
        failures++;
    }
}

/* All that a call may write. */
typedef struct buffers {
    uint32_t words[DINGLEFORK_WORDS];
    uint32_t share1[DINGLEFORK_ENTRIES];
    uint32_t share2[DINGLEFORK_ENTRIES];
    uint32_t share3[DINGLEFORK_ENTRIES];
    uint32_t kinds[DINGLEFORK_ENTRIES];
    uint32_t received1[DINGLEFORK_RECEIVED];
    uint32_t received2[DINGLEFORK_RECEIVED];
    uint32_t received3[DINGLEFORK_RECEIVED];
    uint32_t controller[DINGLEFORK_RECEIVED];
    uint8_t out[DINGLEFORK_TEXT];
} buffers;

/* How much of the lists is lent to a call. */
typedef struct lengths {
    size_t words;
    size_t entries;
    size_t inputs;
    size_t tape2;
    size_t controller;
} lengths;

static buffers lent;
static buffers before;

#define FILLER 0xa5a5a5a5u

static void fill(void) {
    memset(&lent, 0xa5, sizeof lent);
    before = lent;
}

static int unchanged(void) {
    return memcmp(&lent, &before, sizeof lent) == 0;
}

static int same_words(const uint32_t *got, const uint32_t *want, size_t count) {
    return memcmp(got, want, count * sizeof *want) == 0;
}

static int same_places(dinglefork_place got, dinglefork_place want) {
    return memcmp(&got, &want, sizeof want) == 0;
}

/* ---- the worked session */

static const uint32_t inputs[] = {7, 5};
static const uint32_t provider[] = {1, 2, 3, 4};
static const uint32_t tape1[] = {10, 20, 70};
static const uint32_t tape2[] = {30, 40, 80};
static const uint32_t tape3[] = {50, 60, 90};

/* The same as a session file's words: each body's start and count, then the bodies. */
static const uint32_t sheet[] = {
    12, 12, 24, 2, 26, 4, 30, 3, 33, 3, 36, 3,
    1, 0, 0, 1, 0, 0, 6, 1, 2, 11, 3, 0,
    7, 5,
    1, 2, 3, 4,
    10, 20, 70, 30, 40, 80, 50, 60, 90
};

static const lengths all = {DINGLEFORK_WORDS, DINGLEFORK_ENTRIES, 2, 3, DINGLEFORK_RECEIVED};
static const dinglefork_place empty = {0, 0, {0, 0, 0, 0}, {0, 0, 0, 0}};
static const dinglefork_place end = {3, 2, {4, 3, 3, 3}, {7, 7, 7, 3}};

/* The structs that a call is lent. */
typedef struct structs {
    dinglefork_place place;
    dinglefork_tables tables;
    dinglefork_tapes tapes;
    dinglefork_lists lists;
} structs;

static structs structs_of(dinglefork_place place, lengths lend) {
    structs passed = {
        place,
        {
            {lent.share1, lend.entries},
            {lent.share2, lend.entries},
            {lent.share3, lend.entries},
            {lent.kinds, lend.entries}
        },
        {
            {provider, LENGTH_OF(provider)},
            {tape1, LENGTH_OF(tape1)},
            {tape2, lend.tape2},
            {tape3, LENGTH_OF(tape3)}
        },
        {
            {lent.received1, LENGTH_OF(lent.received1)},
            {lent.received2, LENGTH_OF(lent.received2)},
            {lent.received3, LENGTH_OF(lent.received3)},
            {lent.controller, lend.controller}
        }
    };
    return passed;
}

/* The structs have no padding. */
static int same_structs(structs got, structs want) {
    return memcmp(&got, &want, sizeof want) == 0;
}

static dinglefork_answer command(
    uint32_t code, uint32_t a, uint32_t b, dinglefork_place place, lengths lend
) {
    structs passed = structs_of(place, lend);
    dinglefork_answer answer = dinglefork_command(
        code, a, b, &passed.place, &passed.tables, inputs, lend.inputs, &passed.tapes,
        &passed.lists);
    CHECK(same_structs(passed, structs_of(place, lend)));
    return answer;
}

static dinglefork_session_answer session(const uint8_t *file, size_t length, lengths lend) {
    structs passed = structs_of(empty, lend);
    dinglefork_session_answer answer = dinglefork_session(
        file, length, lent.words, lend.words, &passed.tables, &passed.lists);
    CHECK(same_structs(passed, structs_of(empty, lend)));
    return answer;
}

static size_t pool(const uint8_t *file, size_t length, lengths lend) {
    structs passed = structs_of(empty, lend);
    size_t text = dinglefork_pool(
        file, length, lent.words, lend.words, &passed.tables, &passed.lists, lent.out);
    CHECK(same_structs(passed, structs_of(empty, lend)));
    return text;
}

/* Words as bytes, lowest first; answers their number. */
static size_t bytes_of(const uint32_t *words, size_t count, uint8_t *bytes) {
    size_t i;
    for (i = 0; i < 4 * count; i++) {
        bytes[i] = (uint8_t)(words[i / 4] >> (8 * (i % 4)));
    }
    return 4 * count;
}

/* What the worked session leaves in the tables and received lists, with the first word after it. */
static void check_lists(void) {
    static const uint32_t share1[] = {1, 3, 4294967149u, FILLER};
    static const uint32_t share2[] = {2, 4, 4294966074u, FILLER};
    static const uint32_t share3[] = {4, 4294967294u, 1404, FILLER};
    static const uint32_t kinds[] = {1, 1, 1, FILLER};
    static const uint32_t received1[] = {1, 3, 50, 60, 24, 18, 90, FILLER};
    static const uint32_t opened[] = {4294967129u, 4294966084u, 1414, FILLER};
    CHECK(same_words(lent.share1, share1, LENGTH_OF(share1)));
    CHECK(same_words(lent.share2, share2, LENGTH_OF(share2)));
    CHECK(same_words(lent.share3, share3, LENGTH_OF(share3)));
    CHECK(same_words(lent.kinds, kinds, LENGTH_OF(kinds)));
    CHECK(same_words(lent.received1, received1, LENGTH_OF(received1)));
    CHECK(lent.received2[6] != FILLER && lent.received2[7] == FILLER);
    CHECK(lent.received3[6] != FILLER && lent.received3[7] == FILLER);
    CHECK(same_words(lent.controller, opened, LENGTH_OF(opened)));
}

static void worked_by_commands(void) {
    const uint32_t *words = &sheet[12];
    dinglefork_place place = empty;
    uint32_t opened = 0;
    size_t i;
    fill();
    for (i = 0; i < 4; i++) {
        const uint32_t *next = &words[3 * i];
        dinglefork_answer answer = command(next[0], next[1], next[2], place, all);
        CHECK(answer.number == DINGLEFORK_ACCEPTED);
        CHECK(opened == 0);
        place = answer.place;
        opened = answer.opened;
    }
    CHECK(opened == 35);
    CHECK(same_places(place, end));
    check_lists();
}

static void worked_by_session(void) {
    uint8_t file[sizeof sheet];
    dinglefork_session_answer answer;
    fill();
    answer = session(file, bytes_of(sheet, LENGTH_OF(sheet), file), all);
    CHECK(answer.done == 4 && answer.number == DINGLEFORK_ACCEPTED);
    CHECK(same_places(answer.place, end));
    CHECK(same_words(lent.words, sheet, LENGTH_OF(sheet)));
    CHECK(lent.words[LENGTH_OF(sheet)] == FILLER);
    check_lists();
}

static void worked_by_text(void) {
    static const char text[] = "open 3 35\nend 4 7 7 7 3\n";
    uint8_t file[sizeof sheet];
    size_t length;
    fill();
    length = pool(file, bytes_of(sheet, LENGTH_OF(sheet), file), all);
    CHECK(length == strlen(text));
    CHECK(memcmp(lent.out, text, strlen(text)) == 0);
    CHECK(memcmp(lent.out + length, before.out + length, DINGLEFORK_TEXT - length) == 0);
    check_lists();
}

/* ---- refusals */

static void refuses(uint32_t number, uint32_t code, uint32_t a, uint32_t b, lengths lend) {
    dinglefork_place place = empty;
    dinglefork_answer answer;
    place.handles = 2;
    answer = command(code, a, b, place, lend);
    CHECK(answer.number == number);
    CHECK(answer.opened == 0);
    CHECK(same_places(answer.place, place));
    CHECK(unchanged());
}

/* One example of each refusal of a command, on two filled handles: a ring value and a bit word. */
static void refused_commands(void) {
    lengths full = all, no_inputs = all, no_tape = all, two_for_controller = all;
    full.entries = 2;
    no_inputs.inputs = 0;
    no_tape.tape2 = 0;
    two_for_controller.controller = 2;
    fill();
    lent.kinds[0] = before.kinds[0] = DINGLEFORK_RING;
    lent.kinds[1] = before.kinds[1] = DINGLEFORK_BIT_WORD;
    refuses(DINGLEFORK_REFUSED_CODE, 0, 0, 0, all);
    refuses(DINGLEFORK_REFUSED_UNUSED_FIELD, DINGLEFORK_STORE, 0, 7, all);
    refuses(DINGLEFORK_REFUSED_HANDLE, DINGLEFORK_ADD, 0, 1, all);
    refuses(DINGLEFORK_REFUSED_KIND, DINGLEFORK_OPEN, 2, 0, all);
    refuses(DINGLEFORK_REFUSED_POSITION, DINGLEFORK_BIT, 2, 32, all);
    refuses(DINGLEFORK_REFUSED_TABLES_FULL, DINGLEFORK_STORE, 0, 0, full);
    refuses(DINGLEFORK_REFUSED_INPUTS_USED, DINGLEFORK_STORE, 0, 0, no_inputs);
    refuses(DINGLEFORK_REFUSED_TAPE_SPENT, DINGLEFORK_RESHARE, 1, 0, no_tape);
    refuses(DINGLEFORK_REFUSED_RECEIVED_FULL, DINGLEFORK_OPEN, 1, 0, two_for_controller);
    lent.kinds[0] = before.kinds[0] = 3;
    refuses(DINGLEFORK_REFUSED_LENT, DINGLEFORK_STORE, 0, 0, all);
}

static void refuses_file(uint32_t number, const uint8_t *file, size_t length, lengths lend) {
    char text[] = "refused ?\n";
    dinglefork_session_answer answer;
    fill();
    answer = session(file, length, lend);
    CHECK(answer.number == number && answer.done == 0);
    CHECK(same_places(answer.place, empty));
    CHECK(unchanged());
    text[8] = (char)('0' + number);
    CHECK(pool(file, length, lend) == strlen(text));
    CHECK(memcmp(lent.out, text, strlen(text)) == 0);
    memcpy(lent.out, before.out, strlen(text));
    CHECK(unchanged());
}

static void refused_files(void) {
    static uint8_t file[DINGLEFORK_BYTES + 4];
    uint32_t words[12 + 129] = {12, 0, 12, 129, 141, 0, 141, 0, 141, 0, 141, 0};
    size_t length = bytes_of(words, LENGTH_OF(words), file);
    lengths word_too_few = all;
    word_too_few.words = DINGLEFORK_WORDS - 1;
    refuses_file(DINGLEFORK_REFUSED_LIMIT, file, length, all);
    length = bytes_of(sheet, LENGTH_OF(sheet), file);
    refuses_file(DINGLEFORK_REFUSED_LENT, file, length, word_too_few);
    refuses_file(DINGLEFORK_REFUSED_FILE_LENGTH, file, 47, all);
    file[0] = 13;
    refuses_file(DINGLEFORK_REFUSED_CONTENTS, file, length, all);
    CHECK(pool(file, sizeof file, all) == 10);
    CHECK(memcmp(lent.out, "refused 3\n", 10) == 0);
}

/* ---- empty lists: no pointer is null, but no element is behind it */

static void empty_command(uint32_t number, uint32_t code, uint32_t a) {
    uint32_t none[1] = {FILLER};
    dinglefork_tables tables = {{none, 0}, {none, 0}, {none, 0}, {none, 0}};
    dinglefork_tapes tapes = {{none, 0}, {none, 0}, {none, 0}, {none, 0}};
    dinglefork_lists lists = {{none, 0}, {none, 0}, {none, 0}, {none, 0}};
    dinglefork_answer answer = dinglefork_command(
        code, a, 0, &empty, &tables, none, 0, &tapes, &lists);
    CHECK(answer.number == number && answer.opened == 0);
    CHECK(same_places(answer.place, empty));
    CHECK(none[0] == FILLER);
}

static void empty_lists(void) {
    static const uint32_t contents[] = {12, 0, 12, 0, 12, 0, 12, 0, 12, 0, 12, 0};
    uint8_t file[sizeof contents];
    size_t length = bytes_of(contents, LENGTH_OF(contents), file);
    lengths none = {DINGLEFORK_WORDS, 0, 0, 0, 0};
    dinglefork_session_answer answer;
    empty_command(DINGLEFORK_REFUSED_TABLES_FULL, DINGLEFORK_STORE, 0);
    empty_command(DINGLEFORK_REFUSED_HANDLE, DINGLEFORK_OPEN, 1);
    fill();
    answer = session(file, length, none);
    CHECK(answer.number == DINGLEFORK_ACCEPTED && answer.done == 0);
    CHECK(pool(file, length, none) == 14);
    CHECK(memcmp(lent.out, "end 0 0 0 0 0\n", 14) == 0);
    refuses_file(DINGLEFORK_REFUSED_FILE_LENGTH, file, 0, none);
}

/* ---- texts of refusals */

/* The text is the front of its room, zero bytes fill the rest, and no byte behind it is written. */
static void text_of(uint32_t number) {
    uint8_t room[DINGLEFORK_REFUSAL_TEXT + 1];
    char beginning[20] = "";
    size_t length, i;
    memset(room, 0xa5, sizeof room);
    length = dinglefork_refusal(number, room);
    if (number >= DINGLEFORK_REFUSED_FILE_LENGTH && number <= DINGLEFORK_REFUSED_RECEIVED_FULL) {
        sprintf(beginning, "refused %u: ", (unsigned)number);
        CHECK(length > strlen(beginning) && length < DINGLEFORK_REFUSAL_TEXT);
    } else {
        CHECK(length == 0);
    }
    CHECK(memcmp(room, beginning, strlen(beginning)) == 0);
    for (i = 0; i < DINGLEFORK_REFUSAL_TEXT; i++) {
        CHECK((room[i] != 0) == (i < length));
    }
    CHECK(room[DINGLEFORK_REFUSAL_TEXT] == 0xa5);
}

static void texts(void) {
    uint32_t number;
    for (number = 0; number <= 300; number++) {
        text_of(number);
        text_of(UINT32_MAX - number);
        text_of((number << 8) | 7);
        text_of((number << 16) | 7);
        text_of((number << 24) | 7);
    }
}

int main(void) {
    worked_by_commands();
    worked_by_session();
    worked_by_text();
    refused_commands();
    refused_files();
    empty_lists();
    texts();
    CHECK(dinglefork_version() == DINGLEFORK_VERSION);
    if (failures != 0) {
        fprintf(stderr, "%d checks failed\n", failures);
        return 1;
    }
    puts("the " LANGUAGE " interface answers as it should");
    return 0;
}
