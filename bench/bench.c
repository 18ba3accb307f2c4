/*
 * Runs the library and its twin in C on the same jobs, of an LP2 and of a 6215, and prints their speed.
 * First both are held against each other, call by call; a difference ends the program with status 1.
 * In the timed runs a finished page is not zeroed, for both alike: only the calls are measured.
 */
#define _POSIX_C_SOURCE 200809L

#include "clocktoad.h"
#include "twin.h"

#include <inttypes.h>
#include <stdbool.h>
#include <stdio.h>
#include <stdlib.h>
#include <string.h>
#include <time.h>

enum { LINES = 66, SPACING = 6, ESC = 0x1B, DENSE = 132, RUNS_MAX = 5 };

/* Aligned so that both readers' memory lies alike in caches and in pages of memory. */
struct reader {
    _Alignas(4096) uint8_t page[CLOCKTOAD_6215_PAGE_BYTES_MAX];
    uint64_t state[CLOCKTOAD_STATE_WORDS];
    struct twin twin;
    uint64_t report[CLOCKTOAD_REPORT_WORDS];
    uint16_t line[CLOCKTOAD_6215_LINE_NUMBERS];
    uint8_t staging[CLOCKTOAD_STAGING_BYTES];
    uint8_t store[CLOCKTOAD_STORE_BYTES];
    size_t page_len, line_len; /* so much is lent; the page's is what the state says is due */
};

static struct reader library, twin;
static uint8_t font[CLOCKTOAD_FONT_BYTES];

/* Lends what a job of the model opens with. */
static void lend(struct reader *r, uint64_t model)
{
    static const struct { size_t page, line; } lengths[] = {
        [CLOCKTOAD_LP2] = { CLOCKTOAD_LP2_PAGE_BYTES(LINES, SPACING), CLOCKTOAD_LP2_LINE_NUMBERS },
        [CLOCKTOAD_6215] = { CLOCKTOAD_6215_PAGE_BYTES(LINES, SPACING), CLOCKTOAD_6215_LINE_NUMBERS },
    };
    r->page_len = lengths[model].page;
    r->line_len = lengths[model].line;
}

static uint64_t open_library(struct reader *r, uint64_t model)
{
    lend(r, model);
    return clocktoad_open(model, LINES, SPACING, r->state, CLOCKTOAD_STATE_WORDS, r->page, r->page_len,
                          r->line, r->line_len, r->staging, sizeof r->staging,
                          r->store, sizeof r->store, font, sizeof font);
}

static uint64_t open_twin(struct reader *r, uint64_t model)
{
    lend(r, model);
    return twin_open(model, LINES, SPACING, &r->twin, r->page, r->page_len, r->line, r->line_len,
                     r->staging, sizeof r->staging, r->store, sizeof r->store, font, sizeof font);
}

static uint64_t feed_library(struct reader *r, const uint8_t *piece, size_t length)
{
    return clocktoad_feed(r->state, CLOCKTOAD_STATE_WORDS, r->page, r->page_len,
                          r->line, r->line_len, r->staging, sizeof r->staging,
                          r->store, sizeof r->store, font, sizeof font,
                          piece, length, r->report, CLOCKTOAD_REPORT_WORDS);
}

static uint64_t feed_twin(struct reader *r, const uint8_t *piece, size_t length)
{
    return twin_feed(&r->twin, r->page, r->page_len, r->line, r->line_len,
                     r->staging, sizeof r->staging, r->store, sizeof r->store, font, sizeof font,
                     piece, length, r->report);
}

static uint64_t due_library(const struct reader *r) { return clocktoad_page_due(r->state, CLOCKTOAD_STATE_WORDS); }

static uint64_t due_twin(const struct reader *r) { return twin_page_due(&r->twin); }

static uint64_t close_library(struct reader *r)
{
    return clocktoad_close(r->state, CLOCKTOAD_STATE_WORDS, r->report, CLOCKTOAD_REPORT_WORDS);
}

/* Jobs. */

struct job {
    const char *name;
    void (*fill)(struct job *);
    uint64_t model;
    uint8_t *bytes;
    size_t length, room;
};

static uint64_t seed;

static uint32_t below(uint32_t bound)
{
    seed ^= seed << 13;
    seed ^= seed >> 7;
    seed ^= seed << 17;
    return (uint32_t)((seed >> 32) * bound >> 32);
}

static void add(struct job *j, unsigned byte)
{
    if (j->length < j->room)
        j->bytes[j->length++] = (uint8_t)byte;
}

static void add_text(struct job *j, const char *text)
{
    while (*text)
        add(j, (uint8_t)*text++);
}

static bool full(const struct job *j) { return j->length == j->room; }

static unsigned letter(void) { return 0x21 + below(0x7E - 0x20); }

/* A well-formed glyph, about as black as a letter: some 5 of its 7 columns are used, with some 17 dots. */
static void make_glyph(uint8_t glyph[16])
{
    unsigned before = 0;
    memset(glyph, 0, 16);
    for (int k = 1; k < 8; k++) {
        unsigned word = 0;
        if (below(4) > 0)
            word = below(512) & ~before;
        glyph[2 * k] = (uint8_t)(word >> 8);
        glyph[2 * k + 1] = (uint8_t)word;
        before = word;
    }
}

static void make_font(void)
{
    for (int code = 0x21; code <= 0x7E; code++)
        make_glyph(font + 16 * code);
}

static void add_line(struct job *j, unsigned characters)
{
    while (characters-- > 0)
        add(j, letter());
    add(j, '\n');
}

static void dense(struct job *j)
{
    while (!full(j))
        add_line(j, DENSE);
}

static void sparse(struct job *j)
{
    while (!full(j)) {
        for (unsigned n = 5 + below(36); n > 0; n--)
            add(j, below(5) == 0 ? ' ' : letter());
        add(j, '\n');
    }
}

static void compressed(struct job *j)
{
    add_text(j, "\033>");
    while (!full(j))
        add_line(j, 220);
}

static void elongated(struct job *j)
{
    add_text(j, "\033<\033a");
    while (!full(j))
        add_line(j, 66);
}

static void add_columns(struct job *j, unsigned columns)
{
    while (columns-- > 0) {
        unsigned column = below(128) & below(128);
        add(j, column);
        if (column == ESC)
            add(j, column);
    }
}

static void plots(struct job *j)
{
    while (!full(j)) {
        add_text(j, "\033d");
        add_columns(j, 1320);
        add_text(j, "\033e\n");
    }
}

static void add_download(struct job *j, unsigned first, unsigned glyphs)
{
    unsigned address = 2048 + 16 * first, count = 16 * glyphs;
    uint8_t sum = 0;
    add_text(j, "\033Y");
    add(j, count >> 8);
    add(j, count);
    add(j, address >> 8);
    add(j, address);
    while (glyphs-- > 0) {
        uint8_t glyph[16];
        make_glyph(glyph);
        for (int k = 0; k < 16; k++) {
            sum = (uint8_t)(sum + glyph[k]);
            add(j, glyph[k]);
        }
    }
    add(j, 0u - sum);
}

static void downloads(struct job *j)
{
    while (!full(j)) {
        add_download(j, 0, 128);
        add_text(j, "\033N");
        add(j, 4);
        add(j, 0);
        for (int k = 0; k < 40; k++) {
            add_download(j, below(128), 1);
            add_line(j, 20 + below(100));
        }
        add_text(j, "\033O");
        add_line(j, 100);
    }
}

static void add_faulty_download(struct job *j)
{
    add_text(j, "\033Y");
    add(j, 0);
    add(j, below(48));
    add(j, 7 + below(4));
    add(j, below(256) & 0xF0);
    for (unsigned n = below(48); n > 0; n--)
        add(j, below(2) ? 0 : below(256));
}

/* Right but for its glyph, whose every byte is 1. */
static void add_ill_formed(struct job *j)
{
    static const uint8_t header[] = { ESC, 'Y', 0, 16, 8, 32 };
    for (size_t k = 0; k < sizeof header; k++)
        add(j, header[k]);
    for (int k = 0; k < 16; k++)
        add(j, 1);
    add(j, 0x100 - 16);
}

static void add_tab_list(struct job *j)
{
    add_text(j, "\033F");
    for (unsigned n = below(8); n > 0; n--)
        add(j, 1 + below(75));
    add(j, 0);
    add(j, '\v');
}

static void add_escape(struct job *j)
{
    static const char commands[] = "56<=ab>?de<=b?cNO0x5";
    add(j, ESC);
    add(j, (uint8_t)commands[below(sizeof commands - 1)]);
    add(j, below(3) == 0 ? below(256) : 0);
    if (below(4) > 0)
        add_text(j, "\033e\r"); /* off a plot line, most often */
}

static void mix(struct job *j)
{
    while (!full(j)) {
        switch (below(24)) {
        case 0: add(j, 0x80 + below(128)); break;
        case 1: add_tab_list(j); break;
        case 2: add_line(j, 125 + below(20)); break;
        case 3: add_faulty_download(j); break;
        case 12: add_ill_formed(j); break;
        case 4: add_download(j, below(128), 1); break;
        case 5: add_text(j, "\033c"); add(j, 0); break;
        case 6: add_text(j, below(8) ? "\r" : "\f"); break;
        case 7: case 8: case 9: add_escape(j); break;
        case 10: add_text(j, "\n\033d\001\003\177\033\033\005\033e\n"); break;
        case 11: add_text(j, "\033e"); add(j, below(32)); break;
        default: add_line(j, below(60)); break;
        }
    }
}

/* Jobs of a 6215. */

static void text_6215(struct job *j)
{
    while (!full(j))
        add_line(j, 136);
}

/* What a command sets: positions of a column, and columns of a cell, 0 for as many as before. */
struct style {
    const char *command;
    unsigned step, columns;
};

static const struct style styles[] = {
    { "\033>", 3, 0 },    { "\033?", 5, 0 },    { "\033[0w", 5, 20 },
    { "\033[2w", 3, 20 }, { "\033[4w", 5, 10 }, { "\033[6w", 3, 10 },
};

static const struct style *add_style(struct job *j)
{
    const struct style *style = &styles[below(sizeof styles / sizeof *styles)];
    add_text(j, style->command);
    return style;
}

static void add_word(struct job *j, unsigned letters)
{
    while (letters-- > 0)
        add(j, letter());
    add(j, ' ');
}

static void pitch_6215(struct job *j)
{
    unsigned position = 0, columns = 10;
    while (!full(j)) {
        const struct style *style = add_style(j);
        unsigned letters = 1 + below(10);
        if (style->columns != 0)
            columns = style->columns;
        unsigned word = (letters + 1) * columns * style->step;
        if (position + word > CLOCKTOAD_6215_ROW_POSITIONS) {
            add(j, '\n');
            position = 0;
        }
        add_word(j, letters);
        position += word;
    }
}

/* Right styles, and what is wrong after ESC [ wherever it stands. */
static void add_bracket(struct job *j)
{
    static const char *const brackets[] = {
        "0w", "2w", "4w", "6w", "004w", "6w", "4w", "4w", "0000000000000000000006w",
        "1w", "3w", "5w", "7w", "8w", "w", "4;w", ";4w", ";w", "10w", "60w", "65540w", "4294967300w",
        "0z", "3z", "8z", "z", "1;z", ";2z", ";;;z", "12z", "65537z", "18446744073709551617z",
        "0r", "113r", ";0r", ";;0r", ";;113r", "9;8;7r", "9;9;10r", "65602;1;66r", ";;;r", "66;1;66;1r", "1;1;1;r",
        "m", "4m", "1;2;3h", ";H", "4 w", "?4w", "-4w", "4:w", "4/w", "4W", "1Z", "R",
        "5\n", "2\f", "2;\033", "6\177", "\200", "\377",
    };
    add_text(j, "\033[");
    add_text(j, brackets[below(sizeof brackets / sizeof *brackets)]);
}

static void add_setting(struct job *j, unsigned number)
{
    char text[16];
    if (below(8) == 0)
        return; /* omitted */
    snprintf(text, sizeof text, below(8) == 0 ? "%04u" : "%u", number);
    add_text(j, text);
}

static void add_form(struct job *j)
{
    unsigned lines = below(4) == 0 ? 1 + below(112) : 60 + below(53), top = 1 + below(lines);
    add_text(j, "\033[");
    add_setting(j, lines);
    add(j, ';');
    add_setting(j, below(2) ? 1 : top);
    add(j, ';');
    add_setting(j, below(2) ? lines : top + below(lines - top + 1));
    add(j, 'r');
}

/* In place three times of four, where the form feed is one. */
static void add_form_change(struct job *j)
{
    if (below(4) > 0)
        add(j, '\f');
    switch (below(8)) {
    case 0: add_text(j, "\033[1z"); break;
    case 1: add_text(j, "\033[2z"); break;
    case 2: add_text(j, "\033[r"); break;
    case 3: add_text(j, "\033[66;1;66r"); break;
    default: add_form(j); break;
    }
}

static void add_plot_6215(struct job *j)
{
    bool condensed = below(2);
    unsigned columns = below(40);
    if (below(24) == 0)
        columns = (condensed ? 2250 : 1345) + below(30); /* 2,266 or 1,360 fit */
    add_text(j, condensed ? "\033>\033d" : "\033?\033d");
    add_columns(j, columns);
    add_text(j, below(4) ? "\033e" : "\033[4w\033>\033e\033[6wx");
    add(j, below(2) ? '\n' : '\r');
}

/* About as many characters as a line has room for in its style. */
static void add_full_line(struct job *j)
{
    static const struct { const char *style; unsigned room; } lines[] = {
        { "\033[0w", 68 }, { "\033[2w", 113 }, { "\033[4w", 136 }, { "\033[6w", 226 },
    };
    unsigned k = below(4);
    add_text(j, lines[k].style);
    add_line(j, lines[k].room - 5 + below(12));
}

static void add_text_6215(struct job *j)
{
    for (unsigned words = below(8); words > 0; words--) {
        if (below(8) == 0)
            add_style(j);
        add_word(j, 1 + below(12));
    }
    add(j, '\n');
}

static void mix_6215(struct job *j)
{
    while (!full(j)) {
        switch (below(32)) {
        case 0: add(j, 0x80 + below(128)); break;
        case 1: add_tab_list(j); break;
        case 2: case 3: add_full_line(j); break;
        case 4: add_faulty_download(j); break;
        case 5: add_ill_formed(j); break;
        case 6: add_download(j, below(128), 1); break;
        case 7: add_text(j, "\033c"); add(j, 0); break;
        case 8: add_text(j, below(8) ? "\r" : "\f"); break;
        case 9: add(j, '\v'); break;
        case 10: case 11: case 12: add_escape(j); break;
        case 13: add_text(j, "\033e"); add(j, below(32)); break;
        case 14: case 15: case 16: add_bracket(j); break;
        case 17: add_form_change(j); break;
        case 18: add_plot_6215(j); break;
        default: add_text_6215(j); break;
        }
    }
}

/* The two held against each other. */

static void differ(const struct job *j, size_t piece, uint64_t place, const char *what)
{
    printf("job %s, pieces of %zu, byte %" PRIu64 ": %s differs\n", j->name, piece, place, what);
    exit(1);
}

static void compare_memory(const struct job *j, size_t piece, uint64_t place, bool page)
{
    if (memcmp(library.line, twin.line, twin.line_len * sizeof *twin.line) != 0)
        differ(j, piece, place, "the line store");
    if (memcmp(library.staging, twin.staging, sizeof twin.staging) != 0)
        differ(j, piece, place, "the staging");
    if (memcmp(library.store, twin.store, sizeof twin.store) != 0)
        differ(j, piece, place, "the download store");
    if (page && memcmp(library.page, twin.page, twin.page_len) != 0)
        differ(j, piece, place, "the page");
}

static void lend_blank(struct reader *r, uint64_t due)
{
    r->page_len = due;
    memset(r->page, 0, due);
}

/* After a form. */
static void lend_due(const struct job *j, size_t piece, uint64_t place)
{
    uint64_t due = due_library(&library);
    if (due != due_twin(&twin))
        differ(j, piece, place, "the page due");
    lend_blank(&library, due);
    lend_blank(&twin, due);
}

/* Feeds both up to a byte of the job; events are counted by answer. */
static void compare_piece(const struct job *j, size_t piece, size_t from, size_t to, uint64_t events[3])
{
    while (from < to) {
        uint64_t answer = feed_library(&library, j->bytes + from, to - from);
        if (answer != feed_twin(&twin, j->bytes + from, to - from))
            differ(j, piece, from, "the answer");
        if (memcmp(library.report, twin.report, sizeof twin.report) != 0)
            differ(j, piece, from, "the report");
        if (answer > 2 || library.report[0] == 0)
            differ(j, piece, from, "an answer other than 0, 1 or 2, or nothing taken: all");
        from += library.report[0];
        events[answer]++;
        if (answer != 0)
            compare_memory(j, piece, from, answer == 1);
        if (answer == 1)
            lend_due(j, piece, from);
    }
}

static void compare(const struct job *j, size_t piece)
{
    uint64_t events[3] = { 0 };
    if (open_library(&library, j->model) != 0 || open_twin(&twin, j->model) != 0)
        differ(j, piece, 0, "the opening");
    for (size_t from = 0; from < j->length; from += piece)
        compare_piece(j, piece, from, j->length - from < piece ? j->length : from + piece, events);
    compare_memory(j, piece, j->length, true);
    if (close_library(&library) != twin_close(&twin.twin, twin.report) ||
        memcmp(library.report, twin.report, sizeof twin.report) != 0)
        differ(j, piece, j->length, "the closing");
    if (piece >= j->length)
        printf("%-12s %8zu bytes, %7" PRIu64 " forms, %7" PRIu64 " notes: the same\n",
               j->name, j->length, events[1], events[2]);
}

/* Time. */

/* Of the processor, so that others' work on the machine counts less. */
static double now(void)
{
    struct timespec t;
    clock_gettime(CLOCK_PROCESS_CPUTIME_ID, &t);
    return (double)t.tv_sec + 1e-9 * (double)t.tv_nsec;
}

/* Feeds bytes in pieces and returns how many were taken. One for each reader: no call by pointer. */
#define DEFINE_PASS(name, feed, due) \
    static uint64_t name(struct reader *r, const uint8_t *bytes, size_t length, size_t piece) \
    { \
        uint64_t taken = 0; \
        for (size_t from = 0; from < length; from += piece) { \
            size_t at = from, to = length - from < piece ? length : from + piece; \
            while (at < to) { \
                uint64_t answer = feed(r, bytes + at, to - at); \
                if (answer > 2) \
                    return 0; \
                if (answer == 1) \
                    r->page_len = due(r); \
                at += r->report[0]; \
                taken += r->report[0]; \
            } \
        } \
        return taken; \
    }

DEFINE_PASS(pass_library, feed_library, due_library)
DEFINE_PASS(pass_twin, feed_twin, due_twin)

static void must(bool ok)
{
    if (ok)
        return;
    printf("a timed run stopped early\n");
    exit(1);
}

static double time_library(const struct job *j, size_t piece)
{
    must(open_library(&library, j->model) == 0);
    double start = now();
    must(pass_library(&library, j->bytes, j->length, piece) == j->length);
    return now() - start;
}

static double time_twin(const struct job *j, size_t piece)
{
    must(open_twin(&twin, j->model) == 0);
    double start = now();
    must(pass_twin(&twin, j->bytes, j->length, piece) == j->length);
    return now() - start;
}

static int by_size(const void *a, const void *b)
{
    double x = *(const double *)a, y = *(const double *)b;
    return (x > y) - (x < y);
}

static double median(double *times, int runs)
{
    qsort(times, (size_t)runs, sizeof *times, by_size);
    return times[runs / 2];
}

static void measure(const struct job *j, size_t piece, int runs)
{
    double ours[RUNS_MAX], theirs[RUNS_MAX];
    char shown[24] = "whole";
    time_library(j, piece);
    time_twin(j, piece);
    for (int k = 0; k < runs; k++) {
        ours[k] = time_library(j, piece);
        theirs[k] = time_twin(j, piece);
    }
    double a = median(ours, runs), b = median(theirs, runs), megabytes = (double)j->length * 1e-6;
    if (piece < j->length)
        snprintf(shown, sizeof shown, "%zu", piece);
    printf("| %-12s | %6s | %9.1f | %9.1f | %6.2f |\n", j->name, shown, megabytes / a, megabytes / b, a / b);
}

/* One job of `length` bytes of dense text, the buffer's whole lines repeated as often as needed. */
static void growth(const struct job *j, uint64_t length, int runs)
{
    double ours[RUNS_MAX], theirs[RUNS_MAX];
    size_t unit = j->length - j->length % (DENSE + 1);
    for (int k = 0; k < runs; k++) {
        must(open_library(&library, j->model) == 0 && open_twin(&twin, j->model) == 0);
        double start = now();
        for (uint64_t left = length, n; left > 0; left -= n) {
            n = left < unit ? left : unit;
            must(pass_library(&library, j->bytes, (size_t)n, 4096) == n);
        }
        double middle = now();
        for (uint64_t left = length, n; left > 0; left -= n) {
            n = left < unit ? left : unit;
            must(pass_twin(&twin, j->bytes, (size_t)n, 4096) == n);
        }
        ours[k] = middle - start;
        theirs[k] = now() - middle;
    }
    double a = median(ours, runs), b = median(theirs, runs);
    printf("| %11" PRIu64 " | %8.2f | %8.2f | %6.2f |\n", length, a * 1e9 / (double)length, b * 1e9 / (double)length, a / b);
}

static void empty_pieces(long calls, int runs)
{
    double ours[RUNS_MAX], theirs[RUNS_MAX];
    must(open_library(&library, CLOCKTOAD_LP2) == 0 && open_twin(&twin, CLOCKTOAD_LP2) == 0);
    for (int k = 0; k < runs; k++) {
        double start = now();
        for (long n = 0; n < calls; n++)
            must(feed_library(&library, font, 0) == 0);
        double middle = now();
        for (long n = 0; n < calls; n++)
            must(feed_twin(&twin, font, 0) == 0);
        ours[k] = middle - start;
        theirs[k] = now() - middle;
    }
    printf("\nA call with an empty piece: ours %.1f ns, twin %.1f ns\n",
           median(ours, runs) * 1e9 / (double)calls, median(theirs, runs) * 1e9 / (double)calls);
}

static struct job jobs[] = {
    { .name = "dense", .fill = dense },         { .name = "sparse", .fill = sparse },
    { .name = "compressed", .fill = compressed }, { .name = "elongated", .fill = elongated },
    { .name = "plots", .fill = plots },         { .name = "downloads", .fill = downloads },
    { .name = "mix", .fill = mix },
    { .name = "6215 text", .fill = text_6215, .model = CLOCKTOAD_6215 },
    { .name = "6215 pitch", .fill = pitch_6215, .model = CLOCKTOAD_6215 },
    { .name = "6215 mix", .fill = mix_6215, .model = CLOCKTOAD_6215 },
};
enum { JOBS = sizeof jobs / sizeof *jobs };

static void make_jobs(size_t length)
{
    seed = UINT64_C(0x9E3779B97F4A7C15);
    make_font();
    for (int k = 0; k < JOBS; k++) {
        jobs[k].room = length;
        jobs[k].bytes = malloc(length);
        if (jobs[k].bytes == NULL)
            exit(1);
        jobs[k].fill(&jobs[k]);
    }
}

int main(int argc, char **argv)
{
    static const size_t pieces[] = { 1, 64, 4096, SIZE_MAX / 2 };
    bool quick = argc > 1 && strcmp(argv[1], "--quick") == 0;
    int runs = quick ? 3 : RUNS_MAX;
    if (argc > 1 + quick) {
        fprintf(stderr, "usage: bench [--quick]\n");
        return 2;
    }
    setvbuf(stdout, NULL, _IOLBF, 0);
    make_jobs(quick ? 200000 : 2000000);
    for (int k = 0; k < JOBS; k++)
        for (int p = 0; p < 4; p++)
            compare(&jobs[k], pieces[p]);
    printf("\n| job          | piece  | ours MB/s | twin MB/s | ours/twin time |\n|---|---|---|---|---|\n");
    for (int k = 0; k < JOBS; k++)
        for (int p = 0; p < 4; p++)
            measure(&jobs[k], pieces[p], runs);
    printf("\nGrowth, dense text in pieces of 4096:\n\n| bytes | ours ns a byte | twin ns a byte | ours/twin time |\n|---|---|---|---|\n");
    for (uint64_t length = 10000; length <= (quick ? 1000000u : 100000000u); length *= 10)
        growth(&jobs[0], length, length > 10000000 ? 3 : runs);
    empty_pieces(quick ? 100000 : 2000000, runs);
    return 0;
}
