/* Prints strangers' manual pages under limits, to standard output in UTF-8, and tells how it went.
 *
 *   cc -o page page.c $(pkg-config --cflags --libs nulbiko)
 *   ./page TMAC PAGE ..
 *
 * TMAC is the macro file, tmac/tmac.an, which is installed as share/nroff/tmac/tmac.an. The status is that of the last call
 * that did not do all, or 0.
 */
#include "nulbiko.h"
#include <stdio.h>
#include <stdlib.h>

/* The most bytes of a file, and of what goes out. */
enum { MOST = 1 << 23 };

struct text {
    char *bytes;
    size_t length;
};

static char *room(void)
{
    char *bytes = malloc(MOST);
    if (!bytes)
        exit(NULBIKO_OUT_OF_MEMORY);
    return bytes;
}

static struct text read_file(const char *name)
{
    struct text text = {room(), 0};
    FILE *file = fopen(name, "rb");
    if (!file) {
        perror(name);
        exit(9);
    }
    text.length = fread(text.bytes, 1, MOST, file);
    fclose(file);
    return text;
}

/* Prints a page, and tells how that went. */
static enum nulbiko_outcome print_page(struct nulbiko_handle *handle, const char *name, char *out)
{
    struct nulbiko_report report = NULBIKO_REPORT;
    struct text page = read_file(name);
    enum nulbiko_outcome outcome = nulbiko_run(handle, page.bytes, page.length, out, MOST, &report);
    free(page.bytes);
    fwrite(out, 1, report.written, stdout);
    if (outcome == NULBIKO_DONE)
        return outcome;
    fprintf(stderr, "%s:%llu: %s", name, (unsigned long long)report.line, nulbiko_outcome_name(outcome));
    if (outcome == NULBIKO_LIMIT)
        fprintf(stderr, ": %s", nulbiko_limit_name(report.limit));
    fprintf(stderr, " (%zu bytes out, %llu moves)\n", report.written, (unsigned long long)report.moves);
    return outcome;
}

int main(int count, char **words)
{
    if (count < 3)
        return 2;
    const struct nulbiko_limits limits = NULBIKO_LIMITS_OF_STRANGERS;
    struct nulbiko_document_options options = NULBIKO_DOCUMENT_OPTIONS; /* one long page, 78 cells wide, in UTF-8 */
    struct text macros = read_file(words[1]);
    struct nulbiko_handle *handle;
    char *out = room();

    options.macros = macros.bytes;
    options.macros_length = macros.length;
    enum nulbiko_outcome status = nulbiko_open(&limits, &options, &handle);
    free(macros.bytes);
    for (int i = 2; handle && i < count; i++) {
        enum nulbiko_outcome outcome = print_page(handle, words[i], out);
        if (outcome != NULBIKO_DONE)
            status = outcome;
    }
    nulbiko_close(handle);
    free(out);
    return (int)status;
}
