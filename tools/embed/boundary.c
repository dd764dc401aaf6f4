/* Tries the boundary of libnulbiko: what is refused, and what the calls tell. Prints what isn't as it must be. */
#include "nulbiko.h"
#include <stdio.h>
#include <string.h>
#include <sys/resource.h>

enum { SIZE = sizeof(struct nulbiko_limits) };

static int passed, failed;

static void judge(const char *what, bool good)
{
    if (good) {
        passed++;
    } else {
        failed++;
        printf("not so: %s\n", what);
    }
}

static const struct nulbiko_limits plain = NULBIKO_LIMITS;
static const struct nulbiko_options options = NULBIKO_OPTIONS;
static const char text[] = ".pl 1\na\n.br\nb\n.br\n";
static struct nulbiko_report report;
static char out[1 << 16];

/* Output and report are as they are where nothing was done. */
static bool nothing_done(void)
{
    for (size_t i = 0; i < sizeof out; i++)
        if (out[i] != '#')
            return false;
    return report.size == sizeof report && !report.written && !report.at && !report.moves && !report.limit && !report.dropped &&
           !report.line;
}

/* The report is as it was prepared, after its size. */
static bool report_untouched(void)
{
    const unsigned char *bytes = (const unsigned char *)&report;
    for (size_t i = sizeof report.size; i < sizeof report; i++)
        if (bytes[i] != 0x5a)
            return false;
    return true;
}

static void prepare(void)
{
    memset(out, '#', sizeof out);
    memset(&report, 0x5a, sizeof report);
    report.size = sizeof report;
}

/* What went out is this and nothing after it. */
static bool put_out(const char *wanted)
{
    size_t length = strlen(wanted);
    return report.written == length && !memcmp(out, wanted, length) && (length == sizeof out || out[length] == '#');
}

static enum nulbiko_outcome format(const struct nulbiko_limits *limits, const char *bytes, size_t capacity)
{
    prepare();
    return nulbiko_format(limits, &options, bytes, strlen(bytes), out, capacity, &report);
}

/* How the calls below set a page: bytes, width 78. */
static struct nulbiko_document_options plainly(void)
{
    struct nulbiko_document_options set = NULBIKO_DOCUMENT_OPTIONS;
    set.table = NULBIKO_NO_TABLE;
    set.form = NULBIKO_BYTES;
    return set;
}

static enum nulbiko_outcome document(const struct nulbiko_limits *limits, struct nulbiko_document_options set, const char *bytes,
                                     size_t capacity)
{
    prepare();
    return nulbiko_document(limits, &set, bytes, strlen(bytes), out, capacity, &report);
}

static void null_of_documents(void)
{
    struct nulbiko_document_options set = plainly();
    prepare();
    judge("document: no text", nulbiko_document(&plain, &set, NULL, 1, out, 9, &report) == NULBIKO_NULL && nothing_done());
    prepare();
    judge("document: no output", nulbiko_document(&plain, &set, text, 1, NULL, 9, &report) == NULBIKO_NULL && nothing_done());
    prepare();
    judge("document: no limits", nulbiko_document(NULL, &set, text, 1, out, 9, &report) == NULBIKO_NULL && nothing_done());
    prepare();
    judge("document: no options", nulbiko_document(&plain, NULL, text, 1, out, 9, &report) == NULBIKO_NULL && nothing_done());
    judge("document: no report", nulbiko_document(&plain, &set, text, 1, out, 9, NULL) == NULBIKO_NULL);
    prepare();
    judge("document: 0 and 0", nulbiko_document(&plain, &set, NULL, 0, NULL, 0, &report) == NULBIKO_DONE && put_out(""));
    set.macros_length = 1;
    judge("document: no macros", document(&plain, set, text, sizeof out) == NULBIKO_NULL && nothing_done());
}

static void null_of_handles(void)
{
    struct nulbiko_document_options set = plainly();
    struct nulbiko_handle *handle = (struct nulbiko_handle *)out;
    judge("open: no limits", nulbiko_open(NULL, &set, &handle) == NULBIKO_NULL && !handle);
    judge("open: no options", nulbiko_open(&plain, NULL, &handle) == NULBIKO_NULL && !handle);
    judge("open: no handle", nulbiko_open(&plain, &set, NULL) == NULBIKO_NULL);
    set.macros_length = 1;
    judge("open: no macros", nulbiko_open(&plain, &set, &handle) == NULBIKO_NULL && !handle);
    prepare();
    judge("run: no handle", nulbiko_run(NULL, text, 1, out, 9, &report) == NULBIKO_NULL && nothing_done());
    nulbiko_close(NULL);
    set = plainly();
    judge("open: no macros, none needed", nulbiko_open(&plain, &set, &handle) == NULBIKO_DONE && handle);
    prepare();
    judge("run: no text", nulbiko_run(handle, NULL, 1, out, 9, &report) == NULBIKO_NULL && nothing_done());
    prepare();
    judge("run: no output", nulbiko_run(handle, text, 1, NULL, 9, &report) == NULBIKO_NULL && nothing_done());
    judge("run: no report", nulbiko_run(handle, text, 1, out, 9, NULL) == NULBIKO_NULL);
    prepare();
    judge("run: 0 and 0", nulbiko_run(handle, NULL, 0, NULL, 0, &report) == NULBIKO_DONE && put_out(""));
    nulbiko_close(handle);
}

static void null_pointers(void)
{
    prepare();
    judge("format: no text", nulbiko_format(&plain, &options, NULL, 1, out, 9, &report) == NULBIKO_NULL && nothing_done());
    prepare();
    judge("format: no output", nulbiko_format(&plain, &options, text, 1, NULL, 9, &report) == NULBIKO_NULL && nothing_done());
    prepare();
    judge("format: no limits", nulbiko_format(NULL, &options, text, 1, out, 9, &report) == NULBIKO_NULL && nothing_done());
    prepare();
    judge("format: no options", nulbiko_format(&plain, NULL, text, 1, out, 9, &report) == NULBIKO_NULL && nothing_done());
    judge("format: no report", nulbiko_format(&plain, &options, text, 1, out, 9, NULL) == NULBIKO_NULL);
    prepare();
    judge("format: 0 and 0", nulbiko_format(&plain, &options, NULL, 0, NULL, 0, &report) == NULBIKO_DONE && put_out(""));
    prepare();
    judge("preconv: no text", nulbiko_preconv(NULBIKO_NO_TABLE, NULL, 1, out, 9, &report) == NULBIKO_NULL && nothing_done());
    prepare();
    judge("preconv: no output", nulbiko_preconv(NULBIKO_NO_TABLE, text, 1, NULL, 9, &report) == NULBIKO_NULL && nothing_done());
    judge("preconv: no report", nulbiko_preconv(NULBIKO_NO_TABLE, text, 1, out, 9, NULL) == NULBIKO_NULL);
    prepare();
    judge("preconv: 0 and 0", nulbiko_preconv(NULBIKO_NO_TABLE, NULL, 0, NULL, 0, &report) == NULBIKO_DONE && put_out(""));
    prepare();
    judge("mdoc: no text", nulbiko_mdoc(NULL, 1, out, 9, &report) == NULBIKO_NULL && nothing_done());
    prepare();
    judge("mdoc: no output", nulbiko_mdoc(text, 1, NULL, 9, &report) == NULBIKO_NULL && nothing_done());
    judge("mdoc: no report", nulbiko_mdoc(text, 1, out, 9, NULL) == NULBIKO_NULL);
    prepare();
    judge("mdoc: 0 and 0", nulbiko_mdoc(NULL, 0, NULL, 0, &report) == NULBIKO_DONE && put_out(""));
    prepare();
    judge("utf8: no text", nulbiko_utf8(NULBIKO_LATIN, false, NULL, 1, out, 9, &report) == NULBIKO_NULL && nothing_done());
    prepare();
    judge("utf8: no output", nulbiko_utf8(NULBIKO_LATIN, false, text, 1, NULL, 9, &report) == NULBIKO_NULL && nothing_done());
    judge("utf8: no report", nulbiko_utf8(NULBIKO_LATIN, false, text, 1, out, 9, NULL) == NULBIKO_NULL);
    prepare();
    judge("utf8: 0 and 0", nulbiko_utf8(NULBIKO_LATIN, false, NULL, 0, NULL, 0, &report) == NULBIKO_DONE && put_out(""));
    judge("choose: no text", nulbiko_choose(NULL, 1) == NULBIKO_NO_TABLE);
    prepare();
    judge("tbl: no text", nulbiko_tbl(NULBIKO_NO_TABLE, 78, NULL, 1, out, 9, &report) == NULBIKO_NULL && nothing_done());
    prepare();
    judge("tbl: no output", nulbiko_tbl(NULBIKO_NO_TABLE, 78, text, 1, NULL, 9, &report) == NULBIKO_NULL && nothing_done());
    prepare();
    judge("tbl: no report", nulbiko_tbl(NULBIKO_NO_TABLE, 78, text, 1, out, 9, NULL) == NULBIKO_NULL);
    prepare();
    judge("tbl: 0 and 0", nulbiko_tbl(NULBIKO_NO_TABLE, 78, NULL, 0, NULL, 0, &report) == NULBIKO_DONE && put_out(""));
}

static void null_of_own_tables(void)
{
    prepare();
    judge("preconv_own: no page", nulbiko_preconv_own(NULL, 1, text, 1, out, 9, &report) == NULBIKO_NULL && nothing_done());
    prepare();
    judge("tbl_own: no page", nulbiko_tbl_own(NULL, 1, 78, text, 1, out, 9, &report) == NULBIKO_NULL && nothing_done());
    prepare();
    judge("utf8_own: no page", nulbiko_utf8_own(NULL, 1, false, text, 1, out, 9, &report) == NULBIKO_NULL && nothing_done());
    prepare();
    judge("preconv_own: no text", nulbiko_preconv_own(text, 1, NULL, 1, out, 9, &report) == NULBIKO_NULL && nothing_done());
    prepare();
    judge("tbl_own: no output", nulbiko_tbl_own(text, 1, 78, text, 1, NULL, 9, &report) == NULBIKO_NULL && nothing_done());
    judge("utf8_own: no report", nulbiko_utf8_own(text, 1, false, text, 1, out, 9, NULL) == NULBIKO_NULL);
    judge("choose_own: no page", nulbiko_choose_own(NULL, 1) == NULBIKO_NO_TABLE);
    prepare();
    judge("preconv_own: 0 and 0", nulbiko_preconv_own(NULL, 0, NULL, 0, NULL, 0, &report) == NULBIKO_DONE && put_out(""));
    prepare();
    judge("tbl_own: 0 and 0", nulbiko_tbl_own(NULL, 0, 78, NULL, 0, NULL, 0, &report) == NULBIKO_DONE && put_out(""));
    prepare();
    judge("utf8_own: 0 and 0", nulbiko_utf8_own(NULL, 0, false, NULL, 0, NULL, 0, &report) == NULBIKO_DONE && put_out(""));
}

static void ranges(void)
{
    const struct nulbiko_limits bad[] = {
        {SIZE, 63, 256, 65536, 1, 64},    {SIZE, 64, 0, 65536, 1, 64}, {SIZE, 64, 256, 0, 1, 64}, {SIZE, 64, 256, 65536, 0, 64},
        {SIZE, 16777217, 256, 65536, 1, 64}, {SIZE, 64, 4097, 65536, 1, 64}, {SIZE, 64, 256, 16777217, 1, 64},
        {SIZE, 64, 256, 65536, 4294967297, 64}, {SIZE, 64, 256, 65536, 1, 63}, {SIZE, 64, 256, 65536, 1, 0},
        {SIZE, UINT64_MAX, UINT64_MAX, UINT64_MAX, UINT64_MAX, UINT64_MAX},
    };
    for (size_t i = 0; i < sizeof bad / sizeof *bad; i++)
        judge("format: a limit out of range", format(&bad[i], text, sizeof out) == NULBIKO_OUT_OF_RANGE && nothing_done());
    const uint32_t tables[] = {NULBIKO_NO_TABLE, NULBIKO_LATIN1 + 1, UINT32_MAX};
    for (size_t i = 0; i < sizeof tables / sizeof *tables; i++) {
        prepare();
        judge("utf8: no such table", nulbiko_utf8((enum nulbiko_table)tables[i], false, text, sizeof text, out, sizeof out, &report) ==
                                         NULBIKO_OUT_OF_RANGE && nothing_done());
    }
    prepare();
    judge("preconv: no such table", nulbiko_preconv((enum nulbiko_table)6, text, sizeof text, out, sizeof out, &report) ==
                                        NULBIKO_OUT_OF_RANGE && nothing_done());
    prepare();
    judge("tbl: no such table", nulbiko_tbl((enum nulbiko_table)6, 78, text, sizeof text, out, sizeof out, &report) ==
                                    NULBIKO_OUT_OF_RANGE && nothing_done());
    for (size_t i = 0; i < sizeof bad / sizeof *bad; i++)
        judge("document: a limit out of range", document(&bad[i], plainly(), text, sizeof out) == NULBIKO_OUT_OF_RANGE && nothing_done());
    const uint32_t numbers[][2] = {{7, 0}, {UINT32_MAX, 0}, {0, 1}, {0, 2}, {1, 3}, {6, UINT32_MAX}};
    for (size_t i = 0; i < sizeof numbers / sizeof *numbers; i++) {
        struct nulbiko_document_options set = plainly();
        set.table = (enum nulbiko_table)numbers[i][0];
        set.form = (enum nulbiko_form)numbers[i][1];
        judge("document: no such table or form", document(&plain, set, text, sizeof out) == NULBIKO_OUT_OF_RANGE && nothing_done());
    }
    const struct nulbiko_limits least = {SIZE, 64, 1, 1, 1, 64};
    judge("format: the least limits", format(&least, text, sizeof out) != NULBIKO_OUT_OF_RANGE);
}

/* What is out of range opens no handle. */
static void ranges_of_handles(void)
{
    struct nulbiko_document_options set = plainly();
    struct nulbiko_limits limits = plain;
    struct nulbiko_handle *handle = (struct nulbiko_handle *)out;
    limits.depth = 0;
    judge("open: a limit out of range", nulbiko_open(&limits, &set, &handle) == NULBIKO_OUT_OF_RANGE && !handle);
    limits = plain;
    limits.size = 0;
    judge("open: limits of another size", nulbiko_open(&limits, &set, &handle) == NULBIKO_OUT_OF_RANGE && !handle);
    set.size = 0;
    judge("open: options of another size", nulbiko_open(&plain, &set, &handle) == NULBIKO_OUT_OF_RANGE && !handle);
    set = plainly();
    set.form = NULBIKO_UTF8;
    judge("open: no such table and form", nulbiko_open(&plain, &set, &handle) == NULBIKO_OUT_OF_RANGE && !handle);
}

/* A struct of another size is refused. */
static void sizes(void)
{
    struct nulbiko_limits limits = plain;
    const size_t others[] = {0, SIZE - 8, SIZE + 8, SIZE_MAX};
    for (size_t i = 0; i < sizeof others / sizeof *others; i++) {
        limits.size = others[i];
        judge("format: limits of another size", format(&limits, text, sizeof out) == NULBIKO_OUT_OF_RANGE && nothing_done());
        const struct nulbiko_options other = {others[i], 1, false};
        prepare();
        judge("format: options of another size",
              nulbiko_format(&plain, &other, text, strlen(text), out, sizeof out, &report) == NULBIKO_OUT_OF_RANGE && nothing_done());
        prepare();
        report.size = others[i];
        bool refused = nulbiko_mdoc(text, strlen(text), out, sizeof out, &report) == NULBIKO_OUT_OF_RANGE && report_untouched();
        struct nulbiko_document_options set = plainly();
        judge("document: limits of another size", document(&limits, set, text, sizeof out) == NULBIKO_OUT_OF_RANGE && nothing_done());
        set.size = others[i];
        judge("document: options of another size", document(&plain, set, text, sizeof out) == NULBIKO_OUT_OF_RANGE && nothing_done());
        prepare();
        report.size = others[i] == sizeof report ? 0 : sizeof report;
        judge("mdoc: a report of another size", others[i] == sizeof report || refused);
    }
}

static bool are_names(const char *(*name)(uint32_t), uint32_t count, const char *last)
{
    for (uint32_t i = 0; i < count; i++)
        if (!strcmp(name(i), "unknown") || (i && !strcmp(name(i), name(i - 1))))
            return false;
    return !strcmp(name(count - 1), last) && !strcmp(name(count), "unknown") && !strcmp(name(UINT32_MAX), "unknown");
}

static void names(void)
{
    int major, minor, patch;
    judge("version: that of the header", !strcmp(nulbiko_version(), NULBIKO_VERSION));
    judge("version: its number", sscanf(NULBIKO_VERSION, "%d.%d.%d", &major, &minor, &patch) == 3 &&
                                     10000 * major + 100 * minor + patch == NULBIKO_VERSION_NUMBER);
    judge("names of outcomes", are_names(nulbiko_outcome_name, NULBIKO_TOO_LONG + 1, "text too long"));
    judge("names of limits", are_names(nulbiko_limit_name, NULBIKO_SET_PAGE + 1, "page with tables"));
    judge("names of what is wrong", are_names(nulbiko_wrong_name, NULBIKO_UNSET_REQUEST + 1, "request not set in a text block"));
}

/* Pages that name their coding: two letters of KOI8-R after it; one that is no coding before a letter of UTF-8. */
static const char coded[] = ".\\\" -*- coding: koi8-r -*-\n\xc4\xc1\n";
static const char unknown[] = ".\\\" -*- coding: nonesuch -*-\n\xc3\xa4\n";

/* What went out after so many bytes is this, once utf8 turns it back. */
static bool turned_back(size_t before, const char *wanted, enum nulbiko_table table)
{
    static char shown[1 << 8];
    struct nulbiko_report back = NULBIKO_REPORT;
    if (report.written < before)
        return false;
    return nulbiko_utf8(table, false, out + before, report.written - before, shown, sizeof shown, &back) == NULBIKO_DONE &&
           back.written == strlen(wanted) && !memcmp(shown, wanted, back.written);
}

static void outcomes(void)
{
    judge("format: two pages", format(&plain, text, sizeof out) == NULBIKO_DONE && put_out("a\nb\n") && report.moves > 0);
    judge("format: just enough room", format(&plain, text, 4) == NULBIKO_DONE && put_out("a\nb\n"));
    judge("format: full", format(&plain, text, 3) == NULBIKO_FULL && put_out("a\nb"));
    judge("format: full at once", format(&plain, text, 0) == NULBIKO_FULL && put_out(""));
    const struct nulbiko_limits narrow = {SIZE, 64, 1, 6, 1, UINT64_MAX};
    judge("format: a limit", format(&narrow, "longword\n", sizeof out) == NULBIKO_LIMIT && put_out("") &&
                                 report.limit == NULBIKO_LINE_CELLS && report.at == 7);
    const struct nulbiko_limits few = {SIZE, 262144, 256, 65536, 1000000, 64};
    judge("format: a limit of all moves", format(&few, ".ds a bbbbbbbbbbbbbbbbbbbbbbbbbbbbbbbbbbbbbbbb\n", sizeof out) == NULBIKO_LIMIT &&
                                              put_out("") && report.limit == NULBIKO_MOVES && report.moves == 64 && report.at == 32);
    const struct nulbiko_options fifth = {sizeof fifth, 5, false};
    prepare();
    judge("format: the first page's number",
          nulbiko_format(&plain, &fifth, "\\n%\n", 4, out, 1, &report) == NULBIKO_FULL && put_out("5"));
    prepare();
    judge("preconv: a character", nulbiko_preconv(NULBIKO_NO_TABLE, "\xe2\x80\x94\n", 4, out, sizeof out, &report) == NULBIKO_DONE &&
                                      put_out("\\(em\n"));
    prepare();
    judge("preconv: full", nulbiko_preconv(NULBIKO_NO_TABLE, "word\n", 5, out, 2, &report) == NULBIKO_FULL && put_out("wo"));
    prepare();
    judge("mdoc: a page", nulbiko_mdoc(".Dd $Mdocdate$\n.Dt A 1\n.Os\n.Sh NAME\n", 38, out, sizeof out, &report) == NULBIKO_DONE &&
                              report.written > 7 && !memcmp(out, ".de %i\n", 7));
    prepare();
    judge("mdoc: another page", nulbiko_mdoc(".TH A 1\n", 8, out, sizeof out, &report) == NULBIKO_DONE && put_out(".TH A 1\n"));
    prepare();
    judge("mdoc: full", nulbiko_mdoc("word\n", 5, out, 2, &report) == NULBIKO_FULL && put_out("wo"));
    prepare();
    judge("tbl: no table", nulbiko_tbl(NULBIKO_NO_TABLE, 78, "word\n", 5, out, sizeof out, &report) == NULBIKO_DONE && put_out("word\n") &&
                               report.limit == 0);
    prepare();
    judge("tbl: a table that doesn't end", nulbiko_tbl(NULBIKO_NO_TABLE, 78, ".TS\nl.\na\n", 9, out, sizeof out, &report) == NULBIKO_DONE &&
                                               report.limit == NULBIKO_OPEN_TABLE && report.at == 3);
    prepare();
    judge("tbl: a box of a table",
          nulbiko_tbl(NULBIKO_ENGLISH, 78, ".TS\nbox;\nl.\na\n.TE\n", 18, out, sizeof out, &report) == NULBIKO_DONE &&
              report.written < sizeof out && memchr(out, 0xa4, report.written) && !memchr(out, '+', report.written));
    prepare();
    judge("tbl: full", nulbiko_tbl(NULBIKO_NO_TABLE, 78, "word\n", 5, out, 2, &report) == NULBIKO_FULL && put_out("wo"));
    prepare();
    judge("preconv: a byte of a table", nulbiko_preconv(NULBIKO_LATIN, "\xc3\xa4\n", 3, out, sizeof out, &report) == NULBIKO_DONE &&
                                            put_out("\xe4\n"));
    prepare();
    judge("utf8: a character", nulbiko_utf8(NULBIKO_LATIN, false, "\xe4\n", 2, out, sizeof out, &report) == NULBIKO_DONE &&
                                   put_out("\xc3\xa4\n") && report.dropped == 0);
    prepare();
    judge("utf8: dropped", nulbiko_utf8(NULBIKO_LATIN, false, "a\033[2J\rb\n", 8, out, sizeof out, &report) == NULBIKO_DONE &&
                               put_out("a[2Jb\n") && report.dropped == 2);
    prepare();
    judge("utf8: underlined", nulbiko_utf8(NULBIKO_LATIN, false, "_\ba", 3, out, sizeof out, &report) == NULBIKO_DONE &&
                                  put_out("_\ba"));
    prepare();
    judge("utf8: escapes", nulbiko_utf8(NULBIKO_LATIN, true, "_\ba", 3, out, sizeof out, &report) == NULBIKO_DONE &&
                               put_out("\033[4ma\033[24m"));
    prepare();
    judge("utf8: full", nulbiko_utf8(NULBIKO_LATIN, false, "\xe4\n", 2, out, 1, &report) == NULBIKO_FULL && put_out("\xc3"));
    judge("choose: latin", nulbiko_choose("\xc5\x82", 2) == NULBIKO_LATIN);
    judge("choose: cyrillic", nulbiko_choose("\xd1\x82", 2) == NULBIKO_CYRILLIC);
    judge("choose: nothing to go by", nulbiko_choose("abc", 3) == NULBIKO_ENGLISH);
    judge("choose: under its coding", nulbiko_choose(coded, strlen(coded)) == NULBIKO_CYRILLIC);
    judge("choose: UTF-16", nulbiko_choose("\xfe\xff\x04\x42", 4) == NULBIKO_CYRILLIC);
    prepare();
    judge("preconv: under its coding", nulbiko_preconv(NULBIKO_CYRILLIC, coded, strlen(coded), out, sizeof out, &report) ==
                                           NULBIKO_DONE && turned_back(strlen(coded) - 3, "\xd0\xb4\xd0\xb0\n", NULBIKO_CYRILLIC));
    prepare();
    judge("preconv: a coding that is none", nulbiko_preconv(NULBIKO_LATIN, unknown, strlen(unknown), out, sizeof out, &report) ==
                                                NULBIKO_DONE && turned_back(strlen(unknown) - 3, "\xc3\xa4\n", NULBIKO_LATIN));
}

/* A page of man(7) with macros of its own, characters, a table and a font; one of mdoc(7). */
static const char macros[] = ".de TH\n..\n.pl 3\n.ll \\nLn\n";
static const char whole[] = ".TH A 1\n\xe2\x80\x93 \\fIx\\fP\n.TS\nl l.\na\tb\n.TE\n";

/* Pages of one row, the third of them a table's, which goes out as 69 bytes for the formatter. */
static const char paged[] = "a\n.br\nb\n.br\n.TS\nl l.\nc\td\n.TE\n";

/* Letters that no fixed table has, of one column and of two, and a letter with a mark of its own. */
static const char native[] =
    ".TH A 1\n\xe6\x97\xa5\xe6\x9c\xac \\fI\xc5\x98\\fP x\xcc\xa3\n.TS\nbox;\nl.\n\xe6\x97\xa5\n.TE\n";
static const char shown[] =
    "\xe6\x97\xa5\xe6\x9c\xac \xc5\x98 x\xcc\xa3\n\xe2\x94\x8c\xe2\x94\x80\xe2\x94\x80\xe2\x94\x80\xe2\x94\x90\n"
    "\xe2\x94\x82\xe6\x97\xa5 \xe2\x94\x82\n\xe2\x94\x94\xe2\x94\x80\xe2\x94\x80\xe2\x94\x80\xe2\x94\x98\n\n\n";

/* Pages with tables of their own, in Czech, and in Japanese of mdoc(7). */
static const char czech[] =
    ".TH A 1\n.SH N\xc3\x81ZEV\nA \\- p\xc5\x99""eklad, \\fI\xc5\x99""e\xc4\x8d\\fP\n.TS\nbox;\nl l.\n\xc5\xbe\t\xc5\x87\n.TE\n";
static const char japanese[] =
    ".Dd 2026\n.Dt A 1\n.Os\n.Sh \xe5\x90\x8d\xe5\x89\x8d\n.Nm ls\n.Nd \xe4\xb8\x80\xe8\xa6\xa7\n.TS\nbox;\nl.\n\xe6\x97\xa5\n.TE\n";

static char staged[1 << 16], made[1 << 16];

/* A page by its stages, one after the other, with the table of its own: how many bytes of UTF-8. */
static size_t by_stages(const char *page, bool escapes)
{
    const size_t size = strlen(page);
    size_t before = strlen(macros);
    prepare();
    nulbiko_mdoc(page, size, made, sizeof made, &report);
    nulbiko_preconv_own(page, size, made, report.written, staged, sizeof staged, &report);
    memcpy(made, ".nr L 78\n.nr C 1\n", 17);
    memcpy(made + 17, macros, before);
    before += 17;
    nulbiko_tbl_own(page, size, 78, staged, report.written, made + before, sizeof made - before, &report);
    nulbiko_format(&plain, &options, made, before + report.written, staged, sizeof staged, &report);
    nulbiko_utf8_own(page, size, escapes, staged, report.written, made, sizeof made, &report);
    return report.written;
}

/* It gives the very bytes of a document. */
static bool is_staged(const char *page, enum nulbiko_form form)
{
    struct nulbiko_document_options set = plainly();
    set.macros = macros;
    set.macros_length = strlen(macros);
    set.table = NULBIKO_CHOSEN;
    set.form = form;
    size_t length = by_stages(page, form == NULBIKO_ESCAPES);
    return document(&plain, set, page, sizeof out) == NULBIKO_DONE && report.written == length && !memcmp(out, made, length) &&
           length > 0;
}

static void own_tables(void)
{
    const char *const pages[] = {native, czech, japanese};
    for (size_t i = 0; i < sizeof pages / sizeof *pages; i++) {
        judge("choose_own: its own", nulbiko_choose_own(pages[i], strlen(pages[i])) == NULBIKO_OWN);
        judge("own: a document is its stages", is_staged(pages[i], NULBIKO_UTF8));
        judge("own: with escapes", is_staged(pages[i], NULBIKO_ESCAPES));
    }
    judge("choose_own: a fixed one", nulbiko_choose_own("\xd1\x82", 2) == NULBIKO_CYRILLIC);
    judge("choose_own: nothing to go by", nulbiko_choose_own("abc", 3) == NULBIKO_ENGLISH);
    prepare();
    judge("preconv_own: two characters of two columns", nulbiko_preconv_own(native, strlen(native), "\xe6\x97\xa5\xe6\x9c\xac", 6, out, sizeof out, &report) == NULBIKO_DONE &&
                                                            report.written == 8 && !memcmp(out + 2, "\\(zb", 4) && report.moves == 0);
    prepare();
    judge("preconv_own: full", nulbiko_preconv_own(native, strlen(native), "abc\n", 4, out, 3, &report) == NULBIKO_FULL && put_out("abc"));
    prepare();
    judge("preconv_own: just enough room", nulbiko_preconv_own(native, strlen(native), "abc\n", 4, out, 4, &report) == NULBIKO_DONE && put_out("abc\n"));
    prepare();
    judge("utf8_own: full", nulbiko_utf8_own(native, strlen(native), false, "a_\bb\n", 5, out, 3, &report) == NULBIKO_FULL && put_out("a_\b"));
    prepare();
    judge("tbl_own: full", nulbiko_tbl_own(native, strlen(native), 78, "abc\n", 4, out, 2, &report) == NULBIKO_FULL && put_out("ab"));
}

static void documents(void)
{
    struct nulbiko_document_options set = plainly();
    judge("document: two pages", document(&plain, set, text, sizeof out) == NULBIKO_DONE && put_out("a\nb\n") && report.moves > 0);
    judge("document: its last line", report.line == 5);
    judge("document: just enough room", document(&plain, set, text, 4) == NULBIKO_DONE && put_out("a\nb\n"));
    judge("document: full", document(&plain, set, text, 3) == NULBIKO_FULL && put_out("a\nb"));
    judge("document: full at once", document(&plain, set, text, 0) == NULBIKO_FULL && put_out(""));
    set.macros = macros;
    set.macros_length = strlen(macros);
    judge("document: after macros", document(&plain, set, whole, sizeof out) == NULBIKO_DONE && put_out("- _\bx\na   b\n\n"));
    set.table = NULBIKO_CHOSEN;
    set.form = NULBIKO_UTF8;
    judge("document: UTF-8", document(&plain, set, whole, sizeof out) == NULBIKO_DONE &&
                                 put_out("\xe2\x80\x93 _\bx\na   b\n\n") && report.dropped == 0);
    judge("document: UTF-8, full", document(&plain, set, whole, 2) == NULBIKO_FULL && put_out("\xe2\x80"));
    judge("document: its own table", document(&plain, set, native, sizeof out) == NULBIKO_DONE && put_out(shown) &&
                                         report.dropped == 0);
    judge("document: its own table, full", document(&plain, set, native, 2) == NULBIKO_FULL && put_out("\xe6\x97"));
    set.form = NULBIKO_ESCAPES;
    judge("document: escapes", document(&plain, set, whole, sizeof out) == NULBIKO_DONE &&
                                   put_out("\xe2\x80\x93 \033[4mx\033[24m\na   b\n\n"));
    set.tables = false;
    judge("document: under its coding", document(&plain, set, coded, sizeof out) == NULBIKO_DONE &&
                                            put_out("\xd0\xb4\xd0\xb0\n\n\n"));
    judge("document: no tables", document(&plain, set, ".TS\nl.\na\n.TE\n", sizeof out) == NULBIKO_DONE && put_out("l.  a\n\n\n"));
    set.tables = true;
    set.set_page = 3;
    judge("document: no room for a table", document(&plain, set, whole, sizeof out) == NULBIKO_LIMIT && put_out("") &&
                                               report.limit == NULBIKO_SET_PAGE && report.at == 0);
    set.macros = ".pl 1\n";
    set.macros_length = 6;
    set.set_page = 68;
    judge("document: pages before a table without room", document(&plain, set, paged, sizeof out) == NULBIKO_LIMIT &&
                                                             put_out("a\n") && report.limit == NULBIKO_SET_PAGE &&
                                                             report.line == 8);
    set.set_page = 69;
    judge("document: just enough room for a table", document(&plain, set, paged, sizeof out) == NULBIKO_DONE &&
                                                        put_out("a\nb\nc   d\n") && report.line == 8);
    set.set_page = 0;
    judge("document: room for nothing", document(&plain, set, paged, sizeof out) == NULBIKO_LIMIT && put_out("") &&
                                            report.limit == NULBIKO_SET_PAGE);
    set = plainly();
    set.first = 5;
    judge("document: the first page's number", document(&plain, set, "\\n%\n", 1) == NULBIKO_FULL && put_out("5"));
    set.width = 33;
    judge("document: the width", document(&plain, set, ".pl 1\n\\nL \\nC\n", sizeof out) == NULBIKO_DONE && put_out("33 1\n"));
    set.long_page = false;
    judge("document: many pages", document(&plain, set, ".pl 1\n\\nL \\nC\n", sizeof out) == NULBIKO_DONE && put_out("33 0\n"));
    const char of_mdoc[] = ".Dd x\n.Dt A 1\n.Os\n.pl 1\n";
    set.mdoc = false;
    judge("document: no mdoc", document(&plain, set, of_mdoc, sizeof out) == NULBIKO_DONE && put_out(""));
}

static void limits_of_documents(void)
{
    struct nulbiko_document_options set = plainly();
    const struct nulbiko_limits narrow = {SIZE, 262144, 64, 6, 1000, UINT64_MAX};
    judge("document: a limit", document(&narrow, set, ".pl 1\na\n.br\nb\n.br\nlongword\n", sizeof out) == NULBIKO_LIMIT &&
                                   put_out("a\n") && report.limit == NULBIKO_LINE_CELLS && report.at == 25 && report.line == 6);
    set.macros = "longword\n";
    set.macros_length = 9;
    judge("document: a limit in the macros", document(&narrow, set, "a\n", sizeof out) == NULBIKO_LIMIT && put_out("") &&
                                                 report.limit == NULBIKO_LINE_CELLS && report.at == 0 && report.line == 0);
    const struct nulbiko_limits few = {SIZE, 262144, 256, 65536, 1000000, 64};
    set = plainly();
    judge("document: a limit of all moves", document(&few, set, ".ds a bbbbbbbbbbbbbbbbbbbbbbbbbbbbbbbbbbbbbbbb\n", sizeof out) ==
                                                NULBIKO_LIMIT && report.limit == NULBIKO_MOVES && report.moves == 64);
}

/* A text of which no call has a copy where memory is short. */
static bool report_alike(const struct nulbiko_report *a, const struct nulbiko_report *b)
{
    return a->size == b->size && a->written == b->written && a->at == b->at && a->moves == b->moves && a->limit == b->limit &&
           a->dropped == b->dropped && a->line == b->line;
}

/* What a handle prints is what the page's call prints, by the limits, the options and the macros that it was opened with. */
static bool runs_alike(struct nulbiko_handle *handle, const struct nulbiko_limits *limits, struct nulbiko_document_options set,
                       const char *page, size_t capacity)
{
    static char wanted[sizeof out];
    enum nulbiko_outcome outcome = document(limits, set, page, capacity);
    struct nulbiko_report reported = report;
    memcpy(wanted, out, sizeof out);
    prepare();
    return nulbiko_run(handle, page, strlen(page), out, capacity, &report) == outcome && report_alike(&reported, &report) &&
           !memcmp(wanted, out, sizeof out);
}

static void handles(void)
{
    struct nulbiko_limits limits = NULBIKO_LIMITS_OF_STRANGERS;
    struct nulbiko_document_options set = NULBIKO_DOCUMENT_OPTIONS;
    char macros[] = ".de XX\n[\\\\$1]\n..\n.ds a b\n";
    struct nulbiko_handle *handle = NULL, *other = NULL;
    set.macros = macros;
    set.macros_length = strlen(macros);
    set.width = 20;
    judge("open: it opens", nulbiko_open(&limits, &set, &handle) == NULBIKO_DONE && handle);
    const char *pages[] = {
        ".XX a\n",                                          /* by its macros */
        ".de XX\nother\n..\n.XX a\n.ds a c\n\\*a\n",        /* which it defines anew */
        ".XX b\n\\*a\n",                                   /* and has again */
        ".de YY\n.YY\n..\n.YY\n",                           /* a limit */
        ".TS\nbox;\nl l.\na\tb\n.TE\n",                     /* a table */
        "\xe6\x97\xa5\xe6\x9c\xac\n.TS\nbox;\nl.\na\n.TE\n", /* a table of its own */
        "\xd0\xb4\xd0\xb0\n",
        ".nf\n.ll 200\n.de ZZ\n",
        "",
    };
    for (int round = 0; round < 2; round++)
        for (size_t i = 0; i < sizeof pages / sizeof *pages; i++) {
            judge("run: a page", runs_alike(handle, &limits, set, pages[i], sizeof out));
            judge("run: full", runs_alike(handle, &limits, set, pages[i], 3));
        }
    struct nulbiko_document_options bytes = plainly();
    judge("open: another", nulbiko_open(&plain, &bytes, &other) == NULBIKO_DONE && other != handle);
    judge("run: by the other", runs_alike(other, &plain, bytes, text, sizeof out) && report.written == 4);
    nulbiko_close(other);
    memset(macros, '#', sizeof macros); /* it has a copy */
    prepare();
    judge("run: after its macros are gone",
          nulbiko_run(handle, ".XX a\n", 6, out, sizeof out, &report) == NULBIKO_DONE && report.written > 3 && !memcmp(out, "[a]", 3));
    nulbiko_close(handle);
}

static char long_text[1 << 26];

/* Last, since it takes the program's memory away. */
static void no_memory(void)
{
    const struct nulbiko_limits large = {SIZE, 16777216, 4096, 16777216, 1, UINT64_MAX};
    const rlim_t left = sizeof long_text + (1 << 25);
    struct rlimit most = {left, left};
    setrlimit(RLIMIT_AS, &most);
    judge("format: out of memory", format(&large, text, sizeof out) == NULBIKO_OUT_OF_MEMORY && nothing_done());
    judge("document: out of memory", document(&large, plainly(), text, sizeof out) == NULBIKO_OUT_OF_MEMORY && nothing_done());
    judge("choose: out of memory", nulbiko_choose(long_text, sizeof long_text) == NULBIKO_UNCHOSEN);
    judge("choose_own: out of memory", nulbiko_choose_own(long_text, sizeof long_text) == NULBIKO_UNCHOSEN);
    prepare();
    judge("preconv_own: out of memory", nulbiko_preconv_own(native, strlen(native), long_text, sizeof long_text, out, sizeof out, &report) ==
                                            NULBIKO_OUT_OF_MEMORY && nothing_done());
    prepare();
    judge("tbl_own: out of memory", nulbiko_tbl_own(long_text, sizeof long_text, 78, text, 1, out, sizeof out, &report) ==
                                        NULBIKO_OUT_OF_MEMORY && nothing_done());
    prepare();
    judge("utf8_own: out of memory", nulbiko_utf8_own(long_text, sizeof long_text, false, text, 1, out, sizeof out, &report) ==
                                         NULBIKO_OUT_OF_MEMORY && nothing_done());
    struct nulbiko_document_options set = plainly();
    struct nulbiko_handle *handle = NULL, *none = (struct nulbiko_handle *)out;
    set.macros = long_text;
    set.macros_length = sizeof long_text;
    judge("open: out of memory", nulbiko_open(&plain, &set, &none) == NULBIKO_OUT_OF_MEMORY && !none);
    bool given_back = true;
    set.macros_length = 1 << 22;
    for (int i = 0; i < 64; i++) {
        given_back = nulbiko_open(&plain, &set, &none) == NULBIKO_DONE && given_back;
        nulbiko_close(none);
    }
    judge("close: the memory is given back", given_back);
    set.macros_length = 0;
    judge("open: no memory for the limits", nulbiko_open(&large, &set, &none) == NULBIKO_OUT_OF_MEMORY && !none);
    judge("open: enough for no macros", nulbiko_open(&plain, &set, &handle) == NULBIKO_DONE && handle);
    prepare();
    judge("run: out of memory",
          nulbiko_run(handle, long_text, sizeof long_text, out, sizeof out, &report) == NULBIKO_OUT_OF_MEMORY && nothing_done());
    prepare();
    judge("run: enough again", nulbiko_run(handle, text, strlen(text), out, sizeof out, &report) == NULBIKO_DONE && put_out("a\nb\n"));
    nulbiko_close(handle);
    judge("document: enough again", document(&plain, plainly(), text, sizeof out) == NULBIKO_DONE && put_out("a\nb\n"));
    judge("format: enough again", format(&plain, text, sizeof out) == NULBIKO_DONE && put_out("a\nb\n"));
}

int main(void)
{
    null_of_documents();
    null_of_handles();
    null_pointers();
    null_of_own_tables();
    ranges();
    ranges_of_handles();
    sizes();
    names();
    outcomes();
    documents();
    own_tables();
    limits_of_documents();
    handles();
    no_memory();
    printf("boundary: %d passed, %d failed\n", passed, failed);
    return failed != 0;
}
