/*
 * The three-miner pooling engine, from C and C++. Link with libdinglefork.a or libdinglefork.so;
 * `tools/build dinglefork` makes both.
 *
 * Three calls compute: dinglefork_command does one command, dinglefork_session the commands of a
 * session file, dinglefork_pool the same with the text of the program `pool`. Each does the work of
 * all parties in the caller's buffers. Two more describe: dinglefork_refusal puts a refusal into
 * words, dinglefork_version gives the version. No call keeps anything, allocates, or fails in any
 * other way than by its answer. Calls on different buffers may run at the same time.
 *
 * What the caller must see to, for the pointers passed and for those in the structs behind them:
 * - each pointer is aligned and has at least as many elements behind it as its length says;
 * - no pointer is NULL, not even one of length 0;
 * - a buffer that a call may write overlaps with no other buffer of the call. Structs are buffers
 *   too: those of tables and lists count as written, the place record and those of tapes as read.
 * Lengths count elements, not bytes. Apart from this any length and any content is
 * allowed: the call answers it or refuses it by number.
 *
 * The structs of tables, tapes and lists are left as they were, so that a caller fills them once
 * for many calls.
 *
 * Each rule that is cited is a heading of docs/SPECIFICATION.md.
 */
#ifndef DINGLEFORK_H
#define DINGLEFORK_H

#include <stddef.h>
#include <stdint.h>

#ifdef __cplusplus
extern "C" {
#endif

/* The version of this header. dinglefork_version() is that of the library. */
#define DINGLEFORK_VERSION_MAJOR 0
#define DINGLEFORK_VERSION_MINOR 1
#define DINGLEFORK_VERSION_PATCH 0
#define DINGLEFORK_VERSION_TEXT "0.1.0"
#define DINGLEFORK_VERSION \
    (10000 * DINGLEFORK_VERSION_MAJOR + 100 * DINGLEFORK_VERSION_MINOR + DINGLEFORK_VERSION_PATCH)

/* A session file, in words of four bytes. Specification: Limits. */
#define DINGLEFORK_CONTENTS 12         /* words of its contents, which it begins with */
#define DINGLEFORK_CONTENTS_BYTES 48   /* the same in bytes: the shortest file */
#define DINGLEFORK_COMMANDS 128        /* most commands */
#define DINGLEFORK_COMMAND_WORDS 384   /* most words of commands, three for each */
#define DINGLEFORK_INPUTS 128          /* most inputs */
#define DINGLEFORK_PROVIDER_TAPE 256   /* most words of the provider's tape */
#define DINGLEFORK_MINER_TAPE 2304     /* most words of each miner's tape */
#define DINGLEFORK_WORDS 7692          /* most words of a file; a session is lent as many */
#define DINGLEFORK_BYTES 30768         /* the same in bytes: the longest file */

/* Room that is enough for every session. */
#define DINGLEFORK_ENTRIES 128         /* entries of each share table and the kind list */
#define DINGLEFORK_RECEIVED 3584       /* words of each received list */
#define DINGLEFORK_TEXT 8192           /* bytes of dinglefork_pool's text */

/* Room that is enough for every refusal's text and a zero byte, in bytes. */
#define DINGLEFORK_REFUSAL_TEXT 128

/*
 * The first word of a command. The other two, a and b, are as each line has them; a command that
 * makes a value fills the next handle with it, 1 being the first. Specification: Table of commands.
 */
enum dinglefork_code {
    DINGLEFORK_STORE = 1,          /* 0, 0: the next input */
    DINGLEFORK_ADD = 2,            /* two handles: their sum */
    DINGLEFORK_SUBTRACT = 3,       /* two handles: the first less the second */
    DINGLEFORK_ADD_CONSTANT = 4,   /* a handle and a word: their sum */
    DINGLEFORK_TIMES_CONSTANT = 5, /* a handle and a word: their product */
    DINGLEFORK_MULTIPLY = 6,       /* two handles: their product */
    DINGLEFORK_RESHARE = 7,        /* a handle, 0: its value, in fresh shares */
    DINGLEFORK_BITS = 8,           /* a handle, 0: its value as a bit word */
    DINGLEFORK_BIT = 9,            /* a bit word's handle and a position, 0 to 31: that bit */
    DINGLEFORK_EQUAL = 10,         /* two handles: 1 if their values are equal, or 0 */
    DINGLEFORK_OPEN = 11,          /* a handle, 0: makes no value; the controller learns it */
    DINGLEFORK_BELOW = 12          /* two handles: bit 31 of the first less the second */
};

/* What a handle holds, in the kind list. Specification: Kinds. */
enum dinglefork_kind {
    DINGLEFORK_RING = 1,    /* a ring value: the sum of its shares modulo 2^32 */
    DINGLEFORK_BIT_WORD = 2 /* a bit word: the exclusive or of its shares */
};

/*
 * The number of an answer: 0, or that of a refusal. Of several refusals that apply, the lowest is
 * answered. Specification: Table of refusals.
 */
enum dinglefork_number {
    DINGLEFORK_ACCEPTED = 0,
    /* the file is shorter than its contents or ends within a word */
    DINGLEFORK_REFUSED_FILE_LENGTH = 1,
    /* the bodies do not follow one another from the contents to the file's end */
    DINGLEFORK_REFUSED_CONTENTS = 2,
    /* a body is longer than its limit, or the last command is incomplete */
    DINGLEFORK_REFUSED_LIMIT = 3,
    /* the lent lists do not fit: tables and kinds of unequal length, an unknown kind at a filled
       handle, a count of the place record past its list's end, or, for a session, fewer than
       DINGLEFORK_WORDS words */
    DINGLEFORK_REFUSED_LENT = 4,
    /* no command has this code */
    DINGLEFORK_REFUSED_CODE = 5,
    /* a or b is not used by the command and yet not 0 */
    DINGLEFORK_REFUSED_UNUSED_FIELD = 6,
    /* a or b should be a filled handle and is not */
    DINGLEFORK_REFUSED_HANDLE = 7,
    /* the handle holds a bit word where a ring value is due, or the other way round */
    DINGLEFORK_REFUSED_KIND = 8,
    /* a word has no bit at this position */
    DINGLEFORK_REFUSED_POSITION = 9,
    /* the tables have no entry left for the new value */
    DINGLEFORK_REFUSED_TABLES_FULL = 10,
    /* no input is left to store */
    DINGLEFORK_REFUSED_INPUTS_USED = 11,
    /* a tape has too few words left for the command */
    DINGLEFORK_REFUSED_TAPE_SPENT = 12,
    /* a received list has too little room left for the command */
    DINGLEFORK_REFUSED_RECEIVED_FULL = 13
};

/* How many words of each tape are drawn. */
typedef struct dinglefork_drawn {
    size_t provider;
    size_t one;
    size_t two;
    size_t three;
} dinglefork_drawn;

/* How many words each party has received. */
typedef struct dinglefork_received {
    size_t one;
    size_t two;
    size_t three;
    size_t controller;
} dinglefork_received;

/* How far each lent list is used; all zero at first. Specification: Place record. */
typedef struct dinglefork_place {
    size_t handles;
    size_t inputs;
    dinglefork_drawn drawn;
    dinglefork_received received;
} dinglefork_place;

/* The answer of a command. */
typedef struct dinglefork_answer {
    uint32_t number; /* 0, or a refusal from 4 to 13 */
    dinglefork_place place; /* to be passed with the next command; as before if refused */
    uint32_t opened; /* the word that an accepted open gives, otherwise 0 */
} dinglefork_answer;

/* The answer of a session. */
typedef struct dinglefork_session_answer {
    size_t done; /* how many commands were done: the index, from 0, of a refused one */
    dinglefork_place place; /* after those commands */
    uint32_t number; /* 0, or a refusal from 1 to 13 */
} dinglefork_session_answer;

/* A lent list, which may be written. */
typedef struct dinglefork_list {
    uint32_t *words;
    size_t length;
} dinglefork_list;

/* A lent list that is only read. */
typedef struct dinglefork_tape {
    const uint32_t *words;
    size_t length;
} dinglefork_tape;

/* The share tables of miners 1 to 3 and the kind list; the entry at index 0 is handle 1's. */
typedef struct dinglefork_tables {
    dinglefork_list share1;
    dinglefork_list share2;
    dinglefork_list share3;
    dinglefork_list kinds;
} dinglefork_tables;

/* The random words that the provider and miners 1 to 3 draw. */
typedef struct dinglefork_tapes {
    dinglefork_tape provider;
    dinglefork_tape tape1;
    dinglefork_tape tape2;
    dinglefork_tape tape3;
} dinglefork_tapes;

/* The words that miners 1 to 3 and the controller receive. */
typedef struct dinglefork_lists {
    dinglefork_list received1;
    dinglefork_list received2;
    dinglefork_list received3;
    dinglefork_list controller;
} dinglefork_lists;

/*
 * Does one command.
 *
 * The tables and the kind list have one length. Inputs, tapes and received lists have any length.
 *
 * An accepted command writes, from the place record's counts on, an entry of the tables and the
 * kind list if it makes a value, and the words that the parties receive, and nothing else.
 * A refused one writes nothing.
 * Specification: Accepted commands; Specification: Refused commands.
 */
dinglefork_answer dinglefork_command(
    uint32_t code, uint32_t a, uint32_t b,
    const dinglefork_place *place,
    dinglefork_tables *tables,
    const uint32_t *inputs, size_t inputs_length,
    const dinglefork_tapes *tapes,
    dinglefork_lists *lists);

/*
 * Does the commands of a session file in order, until one is refused. Specification: Sessions.
 *
 * `file` has any length, `words` DINGLEFORK_WORDS or more. The tables and the kind list have one
 * length, the received lists any.
 *
 * The file's words are written to the front of `words`; each accepted command writes what
 * dinglefork_command does. Refusals 1 to 4 are of the session as a whole: then nothing is written,
 * `done` is 0 and the place record is all zero.
 */
dinglefork_session_answer dinglefork_session(
    const uint8_t *file, size_t file_length,
    uint32_t *words, size_t words_length,
    dinglefork_tables *tables,
    dinglefork_lists *lists);

/*
 * The same, and writes the text of the program `pool` to the front of `out`, which has room for
 * DINGLEFORK_TEXT bytes. Answers the text's length in bytes. Specification: Lines.
 *
 * No zero byte is put behind the text. A file over DINGLEFORK_BYTES is not looked into: its text is
 * the line `refused 3`, and the lists stay as they are. Specification: Program.
 */
size_t dinglefork_pool(
    const uint8_t *file, size_t file_length,
    uint32_t *words, size_t words_length,
    dinglefork_tables *tables,
    dinglefork_lists *lists,
    uint8_t *out);

/*
 * Writes what a refusal says, such as `refused 6: a field that the command does not use is not 0;
 * set it to 0`, to the front of `out`, which has room for DINGLEFORK_REFUSAL_TEXT bytes, and zero
 * bytes behind it: a C string. Answers the text's length in bytes. A number that is no refusal's
 * gives an empty text. Specification: Sentences.
 */
size_t dinglefork_refusal(uint32_t number, uint8_t *out);

/* The library's version, in the form of DINGLEFORK_VERSION. */
uint32_t dinglefork_version(void);

#ifdef __cplusplus
}
#endif

#endif
