/* The header's records have the library's layout, and its numbers agree: checked by compiling. */
#include <assert.h>
#include <stddef.h>

#include "../../include/dinglefork.h"

#define IS_AT(record, field, offset, size) \
    static_assert(offsetof(record, field) == (offset), #field); \
    static_assert(sizeof(((record *)0)->field) == (size), #field)

static_assert(sizeof(dinglefork_place) == 80, "place");
IS_AT(dinglefork_place, handles, 0, 8);
IS_AT(dinglefork_place, inputs, 8, 8);
IS_AT(dinglefork_place, drawn.provider, 16, 8);
IS_AT(dinglefork_place, drawn.one, 24, 8);
IS_AT(dinglefork_place, drawn.two, 32, 8);
IS_AT(dinglefork_place, drawn.three, 40, 8);
IS_AT(dinglefork_place, received.one, 48, 8);
IS_AT(dinglefork_place, received.two, 56, 8);
IS_AT(dinglefork_place, received.three, 64, 8);
IS_AT(dinglefork_place, received.controller, 72, 8);

static_assert(sizeof(dinglefork_answer) == 96, "answer");
IS_AT(dinglefork_answer, number, 0, 4);
IS_AT(dinglefork_answer, place, 8, 80);
IS_AT(dinglefork_answer, opened, 88, 4);

static_assert(sizeof(dinglefork_session_answer) == 96, "session answer");
IS_AT(dinglefork_session_answer, done, 0, 8);
IS_AT(dinglefork_session_answer, place, 8, 80);
IS_AT(dinglefork_session_answer, number, 88, 4);

static_assert(sizeof(dinglefork_list) == 16, "list");
IS_AT(dinglefork_list, words, 0, 8);
IS_AT(dinglefork_list, length, 8, 8);

static_assert(sizeof(dinglefork_tape) == 16, "tape");
IS_AT(dinglefork_tape, words, 0, 8);
IS_AT(dinglefork_tape, length, 8, 8);

static_assert(sizeof(dinglefork_tables) == 64, "tables");
IS_AT(dinglefork_tables, share1, 0, 16);
IS_AT(dinglefork_tables, share2, 16, 16);
IS_AT(dinglefork_tables, share3, 32, 16);
IS_AT(dinglefork_tables, kinds, 48, 16);

static_assert(sizeof(dinglefork_tapes) == 64, "tapes");
IS_AT(dinglefork_tapes, provider, 0, 16);
IS_AT(dinglefork_tapes, tape1, 16, 16);
IS_AT(dinglefork_tapes, tape2, 32, 16);
IS_AT(dinglefork_tapes, tape3, 48, 16);

static_assert(sizeof(dinglefork_lists) == 64, "lists");
IS_AT(dinglefork_lists, received1, 0, 16);
IS_AT(dinglefork_lists, received2, 16, 16);
IS_AT(dinglefork_lists, received3, 32, 16);
IS_AT(dinglefork_lists, controller, 48, 16);

/* The limits and the version, by what they are made of. */
static_assert(4 * DINGLEFORK_CONTENTS == DINGLEFORK_CONTENTS_BYTES, "shortest file");
static_assert(3 * DINGLEFORK_COMMANDS == DINGLEFORK_COMMAND_WORDS, "commands");
static_assert(DINGLEFORK_CONTENTS + DINGLEFORK_COMMAND_WORDS + DINGLEFORK_INPUTS
    + DINGLEFORK_PROVIDER_TAPE + 3 * DINGLEFORK_MINER_TAPE == DINGLEFORK_WORDS, "longest file");
static_assert(4 * DINGLEFORK_WORDS == DINGLEFORK_BYTES, "longest file in bytes");
static_assert(DINGLEFORK_VERSION == 100, "version");
static_assert(sizeof(DINGLEFORK_VERSION_TEXT) == 6, "version in words");
