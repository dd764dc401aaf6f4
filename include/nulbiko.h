/* Formatting for programs in C: texts in buffers become pages in buffers, under limits.
 *
 *     cc page.c $(pkg-config --cflags --libs nulbiko)
 *
 * nulbiko_document prints a whole page, from its source to a terminal's UTF-8; nulbiko_open, nulbiko_run and nulbiko_close do
 * so for many pages that are set alike. The calls after them are its stages, one by one.
 *
 * The library comes with the package, and from the workspace that tools/plain writes: target/release/libnulbiko.so and
 * libnulbiko.a. Over the library that is proved (`rt lib` in crates/nulbiko) include/nulbiko.c has these calls.
 *
 * Shapes. A text is a pointer and a count of bytes; it may be 0 and 0. Nothing ends with a byte 0. No text may
 * overlap another or a struct. An output is written from its beginning; what lies after the bytes that are
 * reported is left as it was.
 *
 * Structs begin with their `size`, which the caller sets to sizeof: the macros below do. Those that grow take another size,
 * and a library that doesn't know a struct's size refuses it, with NULBIKO_OUT_OF_RANGE.
 *
 * Units. Lengths, and places in a text, are bytes. Cells are columns of the terminal.
 *
 * Threads. Calls share nothing: any number may run at once, each with an output and a report of its own. A handle may go
 * from thread to thread, and is used by one call at a time. Not for signal handlers, since a call allocates.
 *
 * Memory. A call takes what its limits say and room for the output, and gives all of it back. It writes no file,
 * reads none, prints nothing and ends no process. What nulbiko_open keeps, nulbiko_close gives back; no other call keeps
 * anything.
 *
 * Time. Every call ends. `moves` is how many moves or steps it made; nulbiko_tbl and the calls with a page's own table count none.
 * nulbiko_document and nulbiko_format make at most as many as the limit `moves` says, and at most 256 * (expansions + 1) * (stored + cells +
 * depth + 4) between two bytes that are formatted, those of the macros too. The second is far above what a service waits
 * for, so it sets the first: 10^8 moves mostly take some two seconds. A text that adds to two long strings in turn copies
 * them with each move, and takes far longer: a service limits the seconds of a processor too.
 */
#ifndef NULBIKO_H
#define NULBIKO_H

#include <stdbool.h>
#include <stddef.h>
#include <stdint.h>

/* The version of this header: 10000 times the first number, 100 times the second, and the third. */
#define NULBIKO_VERSION "0.2.0"
#define NULBIKO_VERSION_NUMBER 200

#ifdef __cplusplus
extern "C" {
#endif

/* How a call went. At 2, 3 and 5 nothing was done: the output is as it was, and the report has zeros. */
enum nulbiko_outcome {
    NULBIKO_DONE = 0,          /* All went into the output. */
    NULBIKO_LIMIT = 1,         /* The next move would pass the limit `limit`, after `at` bytes of the text; the
                                * output has the pages that had ended. */
    NULBIKO_OUT_OF_RANGE = 2,  /* A limit or a size is outside its range, or no table has the number. */
    NULBIKO_NULL = 3,          /* A pointer is null: of a text that has bytes, or of a struct. */
    NULBIKO_FULL = 4,          /* The output is too small: it has what fits. Call again with a larger one; there is
                                * no call that goes on where this one stopped. */
    NULBIKO_OUT_OF_MEMORY = 5, /* malloc gave none. */
    NULBIKO_TOO_LONG = 6       /* The text has 2^40 bytes or more. */
};

/* The limits of nulbiko_document and nulbiko_format, by what the report calls them. */
enum nulbiko_limit {
    NULBIKO_STORED = 1,
    NULBIKO_DEPTH = 2,
    NULBIKO_LINE_CELLS = 3,
    NULBIKO_PAGE_CELLS = 4,
    NULBIKO_EXPANSIONS = 5,
    NULBIKO_MOVES = 6,
    NULBIKO_SET_PAGE = 7 /* Of nulbiko_document: the bytes that go out of a table at once. */
};

/* What nulbiko_tbl finds wrong with a table. It sets what it can, and goes on. */
enum nulbiko_wrong {
    NULBIKO_NO_FORMAT = 1,        /* The table ends before its formats do. */
    NULBIKO_BAD_FORMAT = 2,       /* A byte that is no part of a format. */
    NULBIKO_UNKNOWN_OPTION = 3,   /* An option that is none. */
    NULBIKO_TOO_MANY_FIELDS = 4,  /* A row has more fields than the table has columns. */
    NULBIKO_OPEN_BLOCK = 5,       /* A text block has no end. */
    NULBIKO_OPEN_TABLE = 6,       /* The text ends inside a table. */
    NULBIKO_TOO_MANY_COLUMNS = 7, /* More than 64 columns or 256 format lines. */
    NULBIKO_FORMATS_LIMIT = 8,    /* More than 8,192 bytes of options and formats. */
    NULBIKO_ROW_LIMIT = 9,        /* More than 16,384 bytes of a row. */
    NULBIKO_TOO_WIDE = 10,        /* The table is wider than the line. */
    NULBIKO_BAD_ARGUMENT = 11,    /* What follows tab or decimalpoint is not one character. */
    NULBIKO_UNSET_REQUEST = 12    /* A request of a text block that is not set there. */
};

/* Tables of characters: bytes from 128 on stand for characters beyond ASCII from nulbiko_preconv to nulbiko_utf8. */
enum nulbiko_table {
    NULBIKO_NO_TABLE = 0, /* All is spelled in ASCII. */
    NULBIKO_ENGLISH = 1,  /* Signs, and Latin-1. */
    NULBIKO_LATIN = 2,    /* Letters from Czech to Turkish, and common signs. */
    NULBIKO_CYRILLIC = 3,
    NULBIKO_GREEK = 4,
    NULBIKO_LATIN1 = 5, /* Latin-1 at its own bytes: for a program that prints it as it is. */
    NULBIKO_CHOSEN = 6,  /* Of nulbiko_document: the one that nulbiko_choose gives for the page, or in UTF-8, where that lacks
                          * a letter with its marks that the page prints, one of the page's own. */
    NULBIKO_UNCHOSEN = 7, /* Of nulbiko_choose and nulbiko_choose_own: malloc gave no memory to look at the page. No call takes
                           * it. */
    NULBIKO_OWN = 8 /* Of nulbiko_choose_own: one of the page's own, which nulbiko_preconv_own, nulbiko_tbl_own and
                     * nulbiko_utf8_own make of it. No call takes it. */
};

/* How nulbiko_document gives its pages. */
enum nulbiko_form {
    NULBIKO_BYTES = 0,  /* As bytes of the table: those of nulbiko_format. */
    NULBIKO_UTF8 = 1,   /* In UTF-8, as nulbiko_utf8 makes it: what is underlined or bold has backspaces. */
    NULBIKO_ESCAPES = 2 /* The same between the terminal's escape sequences. */
};

/* What a text may cost. */
struct nulbiko_limits {
    size_t size;
    uint64_t stored;     /* Bytes stored: texts under names, registers, traps, open levels. 64 to 2^24. */
    uint64_t depth;      /* Open levels of the input. 1 to 4096. */
    uint64_t cells;      /* Cells of a line, and of a page. 1 to 2^24. */
    uint64_t expansions; /* Expansions between two bytes of the text. 1 to 2^32. */
    uint64_t moves;      /* All moves: a byte of text is two. 64 to 2^64 - 1, which takes thousands of years. */
};

/* nroff's own limits, and those for a stranger's page. */
#define NULBIKO_LIMITS {sizeof(struct nulbiko_limits), 262144, 256, 65536, 1000000, UINT64_MAX}
#define NULBIKO_LIMITS_OF_STRANGERS {sizeof(struct nulbiko_limits), 262144, 64, 65536, 10000, 100000000}

struct nulbiko_options {
    size_t size;
    int64_t first; /* The number of the first page, 1 where it is nothing else. One outside -2147483647 to
                    * 2147483647 sets nothing. */
    bool bold;     /* Each cell but a blank is shown as it looks: underlined as `_`, a backspace and itself, bold as
                    * itself, a backspace and itself. Else letters and digits of ASCII are underlined alone. */
};

#define NULBIKO_OPTIONS {sizeof(struct nulbiko_options), 1, false}

/* How nulbiko_document sets a page, and what its tables may use. */
struct nulbiko_document_options {
    size_t size;
    const void *macros;       /* The text that stands before the page: macro files, as tmac/tmac.an. No file is opened. */
    size_t macros_length;
    int64_t first;            /* The number of the first page, as of nulbiko_options. */
    uint32_t width;           /* The cells of a line, for the macros (the register L, as nroff's -rL78 sets it) and for tables.
                               * A text without macro files begins with `.ll`. */
    enum nulbiko_table table; /* The table of characters: NULBIKO_CHOSEN where it is nothing else. */
    enum nulbiko_form form;   /* How pages go out. Those in UTF-8 have a table: NULBIKO_NO_TABLE is out of range. */
    bool bold;                /* As of nulbiko_options. */
    bool long_page;           /* One long page (the register C, as -rC1 sets it), in place of pages of 66 lines. */
    bool mdoc;                /* A page of mdoc(7) is turned into one of man(7); any other stays as it is. */
    bool tables;              /* Tables are set, where a line begins with `.TS`. */
    size_t formats;           /* Bytes of a table that are held, and of its formats. */
    size_t row;               /* Bytes of a line of a row. */
    size_t set_page;          /* Bytes that go out of a table at once. */
};

/* One long page of 78 columns in UTF-8. For a manual page `macros` is set to tmac.an. */
#define NULBIKO_DOCUMENT_OPTIONS                                                                                            \
    {sizeof(struct nulbiko_document_options), NULL, 0, 1, 78, NULBIKO_CHOSEN, NULBIKO_UTF8, false, true, true, true,       \
     262144, 16384, 16777216}

/* What a call tells beside its outcome. */
struct nulbiko_report {
    size_t size;
    size_t written; /* Bytes at the beginning of the output. */
    uint64_t at;    /* The place in the text of what `limit` tells: of nulbiko_format how many bytes had been
                     * taken, of nulbiko_document how many after the macros of what the formatter reads (0 in the macros), of
                     * nulbiko_tbl the line, counted from 1. */
    uint64_t moves; /* Moves or steps that were made, at most 2^64 - 1; of nulbiko_tbl 0. */
    uint32_t limit; /* Of nulbiko_document and nulbiko_format: which limit. Of nulbiko_tbl: what was wrong first. Else 0. */
    uint64_t dropped; /* Of nulbiko_utf8 and of nulbiko_document in UTF-8: bytes that are no character, which became nothing.
                       * Else 0. */
    uint64_t line;    /* Of nulbiko_document: the line of the page that was read last, counted from 1. Else 0. */
};

#define NULBIKO_REPORT {sizeof(struct nulbiko_report), 0, 0, 0, 0, 0, 0}

/* Prints a whole page: mdoc, preconv, tbl, nroff and utf8 in one call. The page is read under its coding before that, as
 * nulbiko_preconv reads one. Of a page in UTF-8 the bytes are those of the five calls below, one after the other; of one
 * that has a table of its own, as of Japanese, Chinese, Korean, Czech and Vietnamese, three of them are those with `own`. Such
 * a page takes 85 kB of memory more than another, and 950 kB of the stack, where another takes 480 (plain Rust). */
enum nulbiko_outcome nulbiko_document(const struct nulbiko_limits *limits, const struct nulbiko_document_options *options,
                                      const void *input, size_t length, void *output, size_t capacity,
                                      struct nulbiko_report *report);

/* What is kept for many pages that are set alike: how they are set, a copy of the macros, and the memory of the formatter, twice:
 * once as it stands after the macros, so that they are read once. Macros that end a page, end the run or stop at a limit, or that
 * there is no memory for to keep them so, are read with each page. What a page prints is the same. */
struct nulbiko_handle;

/* Opens a handle. At another outcome than NULBIKO_DONE it is null: NULBIKO_OUT_OF_RANGE, NULBIKO_NULL,
 * NULBIKO_OUT_OF_MEMORY. Limits, options and macros may be gone afterwards. */
enum nulbiko_outcome nulbiko_open(const struct nulbiko_limits *limits, const struct nulbiko_document_options *options,
                                  struct nulbiko_handle **handle);

/* Prints a page as nulbiko_document does with the limits and the options that the handle was opened with, whatever it printed
 * before. Whatever the outcome is, the handle serves for the next page. NULBIKO_NULL where the handle is null. */
enum nulbiko_outcome nulbiko_run(struct nulbiko_handle *handle, const void *input, size_t length, void *output,
                                 size_t capacity, struct nulbiko_report *report);

/* Closes a handle, which is gone then. Nothing is done where it is null. */
void nulbiko_close(struct nulbiko_handle *handle);

/* The table that a page takes, by the first 65,536 bytes of its text, read under its coding as nulbiko_preconv reads it:
 * never NULBIKO_LATIN1. NULBIKO_UNCHOSEN where malloc gave no memory, NULBIKO_NO_TABLE where the pointer of a text that has
 * bytes is null. */
enum nulbiko_table nulbiko_choose(const void *input, size_t length);

/* Turns a page of mdoc(7) into one of man(7), as mdoc does, and leaves any other text as it is. It stands before
 * preconv. */
enum nulbiko_outcome nulbiko_mdoc(const void *input, size_t length, void *output, size_t capacity,
                                  struct nulbiko_report *report);

/* Turns what manual pages use into the language of nulbiko_format, as preconv does. The text is read under its coding: as
 * UTF-8, as UTF-16 after its mark, or as the set of eight bits that its first two lines name (preconv(1)); a name that is
 * none changes nothing, and is not reported. Characters of the table become its bytes, which nulbiko_utf8 turns back with the
 * same table. */
enum nulbiko_outcome nulbiko_preconv(enum nulbiko_table table, const void *input, size_t length, void *output,
                                     size_t capacity, struct nulbiko_report *report);

/* Turns tables into the language of nulbiko_format, as tbl does, for a line of so many cells. Boxes are drawn with the
 * characters of the table, where it has them: give it that of nulbiko_preconv. What is wrong with one is reported, and
 * changes no outcome. */
enum nulbiko_outcome nulbiko_tbl(enum nulbiko_table table, size_t line, const void *input, size_t length, void *output,
                                 size_t capacity, struct nulbiko_report *report);

/* Formats a text, as nroff does. Macro files stand at its beginning: it opens no file. */
enum nulbiko_outcome nulbiko_format(const struct nulbiko_limits *limits, const struct nulbiko_options *options,
                                    const void *input, size_t length, void *output, size_t capacity,
                                    struct nulbiko_report *report);

/* Turns bytes of a table into its characters, in UTF-8, after nulbiko_format, as utf8 does. With `escapes` underlined
 * text stands between the terminal's escape sequences, and else after `_` and a backspace. Whatever comes, no other
 * control character goes out but newline. NULBIKO_NO_TABLE is out of range. */
enum nulbiko_outcome nulbiko_utf8(enum nulbiko_table table, bool escapes, const void *input, size_t length, void *output,
                                  size_t capacity, struct nulbiko_report *report);

/* The same of a page in UTF-8, or NULBIKO_OWN where that table lacks a letter with its marks that the page prints. So
 * nulbiko_document chooses, with NULBIKO_CHOSEN. */
enum nulbiko_table nulbiko_choose_own(const void *page, size_t length);

/* nulbiko_preconv, nulbiko_tbl and nulbiko_utf8 with a table of the page's own: each looks at the first 512 KiB of the page, as it
 * was before nulbiko_mdoc, and makes the same table of it. Where the page has more characters than the table has room for, the
 * others are what they look like. Each takes 40 kB of memory and a copy of the page more than with a fixed table, and 480 kB of
 * the stack, where those take 100 (plain Rust). */
enum nulbiko_outcome nulbiko_preconv_own(const void *page, size_t page_length, const void *input, size_t length,
                                         void *output, size_t capacity, struct nulbiko_report *report);
enum nulbiko_outcome nulbiko_tbl_own(const void *page, size_t page_length, size_t line, const void *input, size_t length,
                                     void *output, size_t capacity, struct nulbiko_report *report);
enum nulbiko_outcome nulbiko_utf8_own(const void *page, size_t page_length, bool escapes, const void *input,
                                      size_t length, void *output, size_t capacity, struct nulbiko_report *report);

/* The version of the library, as NULBIKO_VERSION is that of the header. */
const char *nulbiko_version(void);

/* The name of an outcome, of a limit and of what is wrong with a table, for a line that somebody reads. Never null: of
 * a number that is none `unknown`. */
const char *nulbiko_outcome_name(uint32_t outcome);
const char *nulbiko_limit_name(uint32_t limit);
const char *nulbiko_wrong_name(uint32_t wrong);

#ifdef __cplusplus
}
#endif
#endif
