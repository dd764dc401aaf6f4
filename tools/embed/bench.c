/* Formats pages on threads, each with a handle of its own, and tells pages a second and memory.
 *
 *   bench THREADS TMAC PAGE ..
 */
#define _GNU_SOURCE
#include "nulbiko.h"
#include <pthread.h>
#include <stdatomic.h>
#include <stdio.h>
#include <stdlib.h>
#include <sys/resource.h>
#include <time.h>

enum { MOST = 1 << 23 };

static const struct nulbiko_limits limits = NULBIKO_LIMITS_OF_STRANGERS;
static struct nulbiko_document_options options = NULBIKO_DOCUMENT_OPTIONS;
static char **pages;
static int count;
static atomic_int next_page, ended[NULBIKO_TOO_LONG + 1];

static char *buffer(void)
{
    char *bytes = malloc(MOST);
    if (!bytes)
        exit(5);
    return bytes;
}

static size_t read_file(const char *name, char *bytes, size_t most)
{
    FILE *file = fopen(name, "rb");
    if (!file) {
        perror(name);
        exit(3);
    }
    size_t length = fread(bytes, 1, most, file);
    fclose(file);
    return length;
}

static void *work(void *nothing)
{
    struct nulbiko_report report = NULBIKO_REPORT;
    struct nulbiko_handle *handle;
    char *page = buffer(), *out = buffer();
    if (nulbiko_open(&limits, &options, &handle) != NULBIKO_DONE)
        exit(5);
    for (int at = next_page++; at < count; at = next_page++)
        ended[nulbiko_run(handle, page, read_file(pages[at], page, MOST), out, MOST, &report)]++;
    nulbiko_close(handle);
    return nothing;
}

static double seconds(clockid_t clock)
{
    struct timespec now;
    clock_gettime(clock, &now);
    return (double)now.tv_sec + 1e-9 * (double)now.tv_nsec;
}

int main(int words, char **word)
{
    int threads = words > 3 ? atoi(word[1]) : 0;
    if (threads < 1 || threads > 64)
        return 2;
    options.macros = buffer();
    options.macros_length = read_file(word[2], (char *)options.macros, MOST);
    pages = word + 3;
    count = words - 3;
    pthread_t thread[64];
    double begun = seconds(CLOCK_MONOTONIC);
    for (int i = 0; i < threads; i++)
        if (pthread_create(&thread[i], NULL, work, NULL))
            return 5;
    for (int i = 0; i < threads; i++)
        pthread_join(thread[i], NULL);
    double took = seconds(CLOCK_MONOTONIC) - begun;
    struct rusage usage;
    getrusage(RUSAGE_SELF, &usage);
    printf("%d threads: %d pages, %d done, %d at a limit, %d full; %.0f pages a second, %.1f ms of a processor a page, "
           "%ld kB at most\n",
           threads, count, ended[NULBIKO_DONE], ended[NULBIKO_LIMIT], ended[NULBIKO_FULL], count / took,
           1000 * seconds(CLOCK_PROCESS_CPUTIME_ID) / count, usage.ru_maxrss);
    return ended[NULBIKO_DONE] != count;
}
