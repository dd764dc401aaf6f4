/* The calls of nulbiko.h over the library that is proved: what C passes is looked at here, since those calls may not get a
 * null pointer. Compile it and link it before libnulbiko.a of crates/nulbiko. The workspace that tools/plain writes has the
 * same in crates/nulbiko_c. */
#include "nulbiko.h"
#include <stdlib.h>

/* The structs of the calls that are proved. */
struct limits {
    uint64_t stored, depth, cells, expansions, moves;
};

struct options {
    int64_t first;
    bool bold;
};

struct reported {
    size_t written;
    uint64_t at, moves;
    uint32_t limit;
    uint64_t dropped, line;
};

struct table_limits {
    size_t formats, row, page;
};

struct document_options {
    struct options text;
    uint32_t width, table, form;
    bool long_page, mdoc, tables;
};

struct document_setup {
    struct limits limits;
    struct table_limits tables;
    struct document_options options;
};

uint32_t nulbiko_document_lent(const struct document_setup *setup, const uint8_t *macros, size_t macros_length,
                               const uint8_t *page, size_t page_length, uint8_t *output, size_t capacity,
                               struct reported *reported);

/* What is kept: a null pointer, or one of nulbiko_open_lent. */
struct handle {
    void *at;
};

uint32_t nulbiko_open_lent(const struct document_setup *setup, const uint8_t *macros, size_t macros_length,
                           struct handle *handle);
uint32_t nulbiko_run_lent(struct handle *handle, const uint8_t *page, size_t page_length, uint8_t *output, size_t capacity,
                          struct reported *reported);
void nulbiko_close_lent(struct handle *handle);

uint32_t nulbiko_format_lent(const struct limits *limits, const struct options *options, const uint8_t *input,
                             size_t length, uint8_t *output, size_t capacity, struct reported *reported);
uint32_t nulbiko_preconv_lent(uint32_t table, const uint8_t *input, size_t length, uint8_t *output, size_t capacity,
                              struct reported *reported);
uint32_t nulbiko_mdoc_lent(const uint8_t *input, size_t length, uint8_t *output, size_t capacity, struct reported *reported);
uint32_t nulbiko_tbl_lent(uint32_t table, size_t line, const uint8_t *input, size_t length, uint8_t *output,
                          size_t capacity, struct reported *reported);
uint32_t nulbiko_utf8_lent(uint32_t table, bool escapes, const uint8_t *input, size_t length, uint8_t *output,
                           size_t capacity, struct reported *reported);
uint32_t nulbiko_choose_lent(const uint8_t *input, size_t length);
uint32_t nulbiko_preconv_own_lent(const uint8_t *page, size_t page_length, const uint8_t *input, size_t length,
                                  uint8_t *output, size_t capacity, struct reported *reported);
uint32_t nulbiko_tbl_own_lent(const uint8_t *page, size_t page_length, size_t line, const uint8_t *input, size_t length,
                              uint8_t *output, size_t capacity, struct reported *reported);
uint32_t nulbiko_utf8_own_lent(const uint8_t *page, size_t page_length, bool escapes, const uint8_t *input, size_t length,
                               uint8_t *output, size_t capacity, struct reported *reported);
uint32_t nulbiko_choose_own_lent(const uint8_t *page, size_t length);

/* What a call passes, after it was looked at: no pointer is null. */
struct passed {
    const uint8_t *input;
    uint8_t *output;
    uint8_t none;
};

/* Looks at what a call passes; NULBIKO_DONE where it may be made. */
static enum nulbiko_outcome look(struct passed *passed, const void *input, size_t length, void *output, size_t capacity,
                                 struct nulbiko_report *report)
{
    const struct nulbiko_report nothing = NULBIKO_REPORT;
    if (!report)
        return NULBIKO_NULL;
    if (report->size != sizeof *report)
        return NULBIKO_OUT_OF_RANGE;
    *report = nothing;
    if ((!input && length) || (!output && capacity))
        return NULBIKO_NULL;
    passed->none = 0;
    passed->input = input ? (const uint8_t *)input : &passed->none;
    passed->output = output ? (uint8_t *)output : &passed->none;
    return NULBIKO_DONE;
}

/* Reports what a call reported. */
static enum nulbiko_outcome ended(uint32_t outcome, const struct reported *reported, struct nulbiko_report *report)
{
    report->written = reported->written;
    report->at = reported->at;
    report->moves = reported->moves;
    report->limit = reported->limit;
    report->dropped = reported->dropped;
    report->line = reported->line;
    return (enum nulbiko_outcome)outcome;
}

/* How a page is set, and the macros before it. */
struct asked {
    struct document_setup setup;
    const uint8_t *macros;
    size_t macros_length;
    uint8_t none;
};

/* Looks at what a page is asked to be set by; NULBIKO_DONE where it may be passed. */
static enum nulbiko_outcome ask(struct asked *asked, const struct nulbiko_limits *limits,
                                const struct nulbiko_document_options *options)
{
    if (!limits || !options)
        return NULBIKO_NULL;
    if (limits->size != sizeof *limits || options->size != sizeof *options)
        return NULBIKO_OUT_OF_RANGE;
    if (!options->macros && options->macros_length)
        return NULBIKO_NULL;
    const struct document_setup setup = {
        {limits->stored, limits->depth, limits->cells, limits->expansions, limits->moves},
        {options->formats, options->row, options->set_page},
        {{options->first, options->bold},
         options->width,
         (uint32_t)options->table,
         (uint32_t)options->form,
         options->long_page,
         options->mdoc,
         options->tables},
    };
    asked->setup = setup;
    asked->none = 0;
    asked->macros = options->macros ? (const uint8_t *)options->macros : &asked->none;
    asked->macros_length = options->macros_length;
    return NULBIKO_DONE;
}

enum nulbiko_outcome nulbiko_document(const struct nulbiko_limits *limits, const struct nulbiko_document_options *options,
                                      const void *input, size_t length, void *output, size_t capacity,
                                      struct nulbiko_report *report)
{
    struct passed passed;
    struct asked asked;
    struct reported reported;
    enum nulbiko_outcome looked = look(&passed, input, length, output, capacity, report);
    if (looked == NULBIKO_DONE)
        looked = ask(&asked, limits, options);
    if (looked != NULBIKO_DONE)
        return looked;
    uint32_t outcome = nulbiko_document_lent(&asked.setup, asked.macros, asked.macros_length, passed.input, length,
                                             passed.output, capacity, &reported);
    return ended(outcome, &reported, report);
}

struct nulbiko_handle {
    struct handle lent;
};

enum nulbiko_outcome nulbiko_open(const struct nulbiko_limits *limits, const struct nulbiko_document_options *options,
                                  struct nulbiko_handle **handle)
{
    struct asked asked;
    if (!handle)
        return NULBIKO_NULL;
    *handle = NULL;
    enum nulbiko_outcome looked = ask(&asked, limits, options);
    if (looked != NULBIKO_DONE)
        return looked;
    struct nulbiko_handle *opened = malloc(sizeof *opened);
    if (!opened)
        return NULBIKO_OUT_OF_MEMORY;
    opened->lent.at = NULL;
    uint32_t outcome = nulbiko_open_lent(&asked.setup, asked.macros, asked.macros_length, &opened->lent);
    if (outcome == NULBIKO_DONE)
        *handle = opened;
    else
        free(opened);
    return (enum nulbiko_outcome)outcome;
}

enum nulbiko_outcome nulbiko_run(struct nulbiko_handle *handle, const void *input, size_t length, void *output,
                                 size_t capacity, struct nulbiko_report *report)
{
    struct passed passed;
    struct reported reported;
    enum nulbiko_outcome looked = look(&passed, input, length, output, capacity, report);
    if (looked != NULBIKO_DONE)
        return looked;
    if (!handle)
        return NULBIKO_NULL;
    uint32_t outcome = nulbiko_run_lent(&handle->lent, passed.input, length, passed.output, capacity, &reported);
    return ended(outcome, &reported, report);
}

void nulbiko_close(struct nulbiko_handle *handle)
{
    if (!handle)
        return;
    nulbiko_close_lent(&handle->lent);
    free(handle);
}

enum nulbiko_outcome nulbiko_format(const struct nulbiko_limits *limits, const struct nulbiko_options *options,
                                    const void *input, size_t length, void *output, size_t capacity,
                                    struct nulbiko_report *report)
{
    struct passed passed;
    struct reported reported;
    enum nulbiko_outcome looked = look(&passed, input, length, output, capacity, report);
    if (looked != NULBIKO_DONE)
        return looked;
    if (!limits || !options)
        return NULBIKO_NULL;
    if (limits->size != sizeof *limits || options->size != sizeof *options)
        return NULBIKO_OUT_OF_RANGE;
    const struct limits most = {limits->stored, limits->depth, limits->cells, limits->expansions, limits->moves};
    const struct options asked = {options->first, options->bold};
    uint32_t outcome = nulbiko_format_lent(&most, &asked, passed.input, length, passed.output, capacity, &reported);
    return ended(outcome, &reported, report);
}

enum nulbiko_outcome nulbiko_preconv(enum nulbiko_table table, const void *input, size_t length, void *output,
                                     size_t capacity, struct nulbiko_report *report)
{
    struct passed passed;
    struct reported reported;
    enum nulbiko_outcome looked = look(&passed, input, length, output, capacity, report);
    if (looked != NULBIKO_DONE)
        return looked;
    uint32_t outcome = nulbiko_preconv_lent((uint32_t)table, passed.input, length, passed.output, capacity, &reported);
    return ended(outcome, &reported, report);
}

enum nulbiko_outcome nulbiko_mdoc(const void *input, size_t length, void *output, size_t capacity,
                                  struct nulbiko_report *report)
{
    struct passed passed;
    struct reported reported;
    enum nulbiko_outcome looked = look(&passed, input, length, output, capacity, report);
    if (looked != NULBIKO_DONE)
        return looked;
    return ended(nulbiko_mdoc_lent(passed.input, length, passed.output, capacity, &reported), &reported, report);
}

enum nulbiko_outcome nulbiko_tbl(enum nulbiko_table table, size_t line, const void *input, size_t length, void *output,
                                 size_t capacity, struct nulbiko_report *report)
{
    struct passed passed;
    struct reported reported;
    enum nulbiko_outcome looked = look(&passed, input, length, output, capacity, report);
    if (looked != NULBIKO_DONE)
        return looked;
    uint32_t outcome = nulbiko_tbl_lent((uint32_t)table, line, passed.input, length, passed.output, capacity, &reported);
    return ended(outcome, &reported, report);
}

enum nulbiko_outcome nulbiko_utf8(enum nulbiko_table table, bool escapes, const void *input, size_t length, void *output,
                                  size_t capacity, struct nulbiko_report *report)
{
    struct passed passed;
    struct reported reported;
    enum nulbiko_outcome looked = look(&passed, input, length, output, capacity, report);
    if (looked != NULBIKO_DONE)
        return looked;
    uint32_t outcome = nulbiko_utf8_lent((uint32_t)table, escapes, passed.input, length, passed.output, capacity, &reported);
    return ended(outcome, &reported, report);
}

enum nulbiko_table nulbiko_choose(const void *input, size_t length)
{
    const uint8_t none = 0;
    if (!input && length)
        return NULBIKO_NO_TABLE;
    return (enum nulbiko_table)nulbiko_choose_lent(input ? (const uint8_t *)input : &none, length);
}

/* The same with a page whose own table it is: its bytes, or those of no bytes where it has none. */
static enum nulbiko_outcome look_with(const uint8_t **lent, struct passed *passed, const void *page, size_t page_length,
                                      const void *input, size_t length, void *output, size_t capacity,
                                      struct nulbiko_report *report)
{
    enum nulbiko_outcome looked = look(passed, input, length, output, capacity, report);
    if (looked != NULBIKO_DONE)
        return looked;
    if (!page && page_length)
        return NULBIKO_NULL;
    *lent = page ? (const uint8_t *)page : &passed->none;
    return NULBIKO_DONE;
}

enum nulbiko_table nulbiko_choose_own(const void *page, size_t length)
{
    const uint8_t none = 0;
    if (!page && length)
        return NULBIKO_NO_TABLE;
    return (enum nulbiko_table)nulbiko_choose_own_lent(page ? (const uint8_t *)page : &none, length);
}

enum nulbiko_outcome nulbiko_preconv_own(const void *page, size_t page_length, const void *input, size_t length,
                                         void *output, size_t capacity, struct nulbiko_report *report)
{
    const uint8_t *lent;
    struct passed passed;
    struct reported reported;
    enum nulbiko_outcome looked = look_with(&lent, &passed, page, page_length, input, length, output, capacity, report);
    if (looked != NULBIKO_DONE)
        return looked;
    uint32_t outcome =
        nulbiko_preconv_own_lent(lent, page_length, passed.input, length, passed.output, capacity, &reported);
    return ended(outcome, &reported, report);
}

enum nulbiko_outcome nulbiko_tbl_own(const void *page, size_t page_length, size_t line, const void *input, size_t length,
                                     void *output, size_t capacity, struct nulbiko_report *report)
{
    const uint8_t *lent;
    struct passed passed;
    struct reported reported;
    enum nulbiko_outcome looked = look_with(&lent, &passed, page, page_length, input, length, output, capacity, report);
    if (looked != NULBIKO_DONE)
        return looked;
    uint32_t outcome =
        nulbiko_tbl_own_lent(lent, page_length, line, passed.input, length, passed.output, capacity, &reported);
    return ended(outcome, &reported, report);
}

enum nulbiko_outcome nulbiko_utf8_own(const void *page, size_t page_length, bool escapes, const void *input,
                                      size_t length, void *output, size_t capacity, struct nulbiko_report *report)
{
    const uint8_t *lent;
    struct passed passed;
    struct reported reported;
    enum nulbiko_outcome looked = look_with(&lent, &passed, page, page_length, input, length, output, capacity, report);
    if (looked != NULBIKO_DONE)
        return looked;
    uint32_t outcome =
        nulbiko_utf8_own_lent(lent, page_length, escapes, passed.input, length, passed.output, capacity, &reported);
    return ended(outcome, &reported, report);
}

const char *nulbiko_version(void)
{
    return NULBIKO_VERSION;
}

const char *nulbiko_outcome_name(uint32_t outcome)
{
    static const char *const names[] = {"done",        "limit passed",  "out of range", "null pointer",
                                        "output full", "out of memory", "text too long"};
    return outcome < sizeof names / sizeof *names ? names[outcome] : "unknown";
}

const char *nulbiko_limit_name(uint32_t limit)
{
    static const char *const names[] = {"none",       "stored bytes", "input depth", "line cells",
                                        "page cells", "expansions",   "moves",       "page with tables"};
    return limit < sizeof names / sizeof *names ? names[limit] : "unknown";
}

const char *nulbiko_wrong_name(uint32_t wrong)
{
    static const char *const names[] = {"none",
                                        "table without a format",
                                        "bad format",
                                        "unknown option",
                                        "more fields than columns",
                                        "text block without an end",
                                        "table without an end",
                                        "more than 64 columns",
                                        "table formats limit passed",
                                        "table row limit passed",
                                        "table wider than the line",
                                        "not one character after an option",
                                        "request not set in a text block"};
    return wrong < sizeof names / sizeof *names ? names[wrong] : "unknown";
}
