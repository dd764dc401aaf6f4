/* Prints a manual page stage by stage, to standard output in UTF-8, each stage a call: what nulbiko_document does in one.
 *
 *   cc -o stages stages.c $(pkg-config --cflags --libs nulbiko)
 *   ./stages TMAC PAGE
 *
 * Who looks at what lies between two stages, or has a stage of his own, calls them so. TMAC is the macro file, as of page.c. The
 * status is that of the call that did not do all, or 0.
 */
#include "nulbiko.h"
#include <stdio.h>
#include <stdlib.h>
#include <string.h>

/* The most bytes of a file, and of what a stage makes. */
enum { MOST = 1 << 23, WIDTH = 78 };

struct text {
    char *bytes;
    size_t length;
};

static struct text room(void)
{
    struct text text = {malloc(MOST), 0};
    if (!text.bytes)
        exit(NULBIKO_OUT_OF_MEMORY);
    return text;
}

static struct text read_file(const char *name)
{
    struct text text = room();
    FILE *file = fopen(name, "rb");
    if (!file) {
        perror(name);
        exit(9);
    }
    text.length = fread(text.bytes, 1, MOST, file);
    fclose(file);
    return text;
}

/* What a stage made stands in the place of what it was given. */
static void made(const char *stage, enum nulbiko_outcome outcome, struct text *text, struct text *out,
                 const struct nulbiko_report *report)
{
    struct text before = *text;
    if (outcome != NULBIKO_DONE) {
        fprintf(stderr, "%s: %s\n", stage, nulbiko_outcome_name(outcome));
        exit((int)outcome);
    }
    out->length = report->written;
    *text = *out;
    *out = before;
}

/* What stands before the page: the width, one long page, and the macros. */
static void put_macros(struct text *out, const struct text *macros)
{
    out->length = (size_t)sprintf(out->bytes, ".nr L %d\n.nr C 1\n", WIDTH);
    memcpy(out->bytes + out->length, macros->bytes, macros->length);
    out->length += macros->length;
}

int main(int count, char **words)
{
    if (count != 3)
        return 2;
    const struct nulbiko_limits limits = NULBIKO_LIMITS_OF_STRANGERS;
    const struct nulbiko_options options = NULBIKO_OPTIONS;
    struct nulbiko_report report = NULBIKO_REPORT;
    const struct text macros = read_file(words[1]), page = read_file(words[2]);
    struct text text = room(), out = room();

    /* The page's own table, or a fixed one. */
    const enum nulbiko_table table = nulbiko_choose_own(page.bytes, page.length);
    const bool own = table == NULBIKO_OWN;
    if (macros.length > MOST / 2 || table == NULBIKO_UNCHOSEN)
        return NULBIKO_OUT_OF_MEMORY;

    made("mdoc", nulbiko_mdoc(page.bytes, page.length, out.bytes, MOST, &report), &text, &out, &report);
    made("preconv",
         own ? nulbiko_preconv_own(page.bytes, page.length, text.bytes, text.length, out.bytes, MOST, &report)
             : nulbiko_preconv(table, text.bytes, text.length, out.bytes, MOST, &report),
         &text, &out, &report);
    put_macros(&out, &macros);
    char *after = out.bytes + out.length;
    size_t left = MOST - out.length;
    enum nulbiko_outcome outcome =
        own ? nulbiko_tbl_own(page.bytes, page.length, WIDTH, text.bytes, text.length, after, left, &report)
            : nulbiko_tbl(table, WIDTH, text.bytes, text.length, after, left, &report);
    report.written += out.length;
    made("tbl", outcome, &text, &out, &report);
    made("format", nulbiko_format(&limits, &options, text.bytes, text.length, out.bytes, MOST, &report), &text, &out,
         &report);
    made("utf8",
         own ? nulbiko_utf8_own(page.bytes, page.length, false, text.bytes, text.length, out.bytes, MOST, &report)
             : nulbiko_utf8(table, false, text.bytes, text.length, out.bytes, MOST, &report),
         &text, &out, &report);
    fwrite(text.bytes, 1, text.length, stdout);
    return 0;
}
