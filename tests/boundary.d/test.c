/*
 * Tests of the library through its C interface. What is expected is taken from documents 01 and 02 and from
 * docs/DECISIONS.md.
 * A failed check prints where and what, and ends the program with status 1.
 */
#include "clocktoad.h"

#include <stdbool.h>
#include <stdio.h>
#include <stdlib.h>
#include <string.h>

enum {
    WORDS = CLOCKTOAD_STATE_WORDS,
    REPORT = CLOCKTOAD_REPORT_WORDS,
    STORE = CLOCKTOAD_STORE_BYTES,
    NUMBERS = 6800,            /* of the longest line store */
    PAGE = 112 * 12 * 850,     /* the longest page */
    FORM_BYTES = 5 * 12 * 850, /* the longest form of the cutting tests */
    FORMS = 4,
    GUARD = 64, /* bytes after a page, to be seen that they are not written */
    MUCH = 16,
    CUT_JOB = 12,
    EVENTS = 16
};

/* What the documents give of each model. Of a pair the first is in normal pitch, the second in compressed. */
static const struct edition {
    const char *name;
    uint64_t model, lines;         /* its number; the lines of its longest form */
    size_t row, line;              /* bytes of a row; numbers of the line store */
    size_t width[2];               /* positions of a line */
    unsigned cells[2], columns[2]; /* characters and plotted columns that fit into a line */
    size_t step[2], grid[2];       /* positions from column to column; grid positions from position to position */
} editions[] = {
    { "LP2", 0, 99, 825, 2200, { 1320, 2200 }, { 132, 220 }, { 1320, 2200 }, { 1, 1 }, { 5, 3 } },
    { "6215", 1, 112, 850, 6800, { 6800, 6800 }, { 136, 226 }, { 1360, 2266 }, { 5, 3 }, { 1, 1 } },
};

enum { MODELS = sizeof editions / sizeof *editions };

static const struct edition *const wide = &editions[CLOCKTOAD_6215];
static const struct edition *the = editions; /* the model under test */

static unsigned long checks;
static unsigned long untested;
static const char *job_name = "";
static unsigned cutting;

static void check(bool ok, const char *file, int line, const char *what)
{
    checks++;
    if (ok)
        return;
    printf("%s:%d: failed on the %s: %s", file, line, the->name, what);
    if (*job_name)
        printf(" (job %s, cutting %03x)", job_name, cutting);
    printf("\n");
    exit(1);
}

static void equal(uint64_t got, uint64_t want, const char *file, int line, const char *what)
{
    if (got != want)
        printf("got %llu, want %llu\n", (unsigned long long)got, (unsigned long long)want);
    check(got == want, file, line, what);
}

#define CHECK(condition) check((condition), __FILE__, __LINE__, #condition)
#define EQUAL(got, want) equal((got), (want), __FILE__, __LINE__, #got " == " #want)
#define COUNT_OF(table) (sizeof(table) / sizeof *(table))

/* All that a job lends. Each slice has more room than it needs, so that a too long one is real memory. */
struct lent {
    uint64_t state[MUCH * WORDS];
    uint64_t report[MUCH * REPORT];
    uint16_t line[2 * NUMBERS];
    uint8_t staging[2 * STORE];
    uint8_t store[2 * STORE];
    uint8_t font[2 * STORE];
    uint8_t page[2 * PAGE];
};

/* The numbers of a call: an opening's model and form, and the lengths of the slices. */
struct numbers {
    uint64_t model, lines, spacing;
    size_t state, page, line, staging, store, font, report;
};

struct text {
    const char *bytes;
    size_t length;
};

#define TEXT(bytes) { (bytes), sizeof(bytes) - 1 }

struct event {
    uint64_t answer, number, place; /* of a finished form: number 0, the finishing byte's place */
};

struct form {
    size_t bytes;
    uint8_t dots[FORM_BYTES];
};

/* A job being fed, and what it gave so far. */
struct job {
    struct numbers n;
    uint64_t fed;
    size_t events, forms;
    struct event event[EVENTS];
    struct form form[FORMS]; /* the first ones, where they are small */
    struct lent m;
};

static struct job the_job, other_job, probe_job;
static struct lent before;

static size_t rows_of(uint64_t spacing) { return spacing == 6 ? 12 : 9; }

static struct numbers exact(const struct edition *e, uint64_t lines, uint64_t spacing)
{
    size_t page = lines * rows_of(spacing) * e->row;
    struct numbers n = { e->model, lines, spacing, WORDS, page, e->line, STORE, STORE, STORE, REPORT };
    return n;
}

static uint64_t open_with(struct lent *m, struct numbers n)
{
    return clocktoad_open(n.model, n.lines, n.spacing, m->state, n.state, m->page, n.page, m->line, n.line,
                          m->staging, n.staging, m->store, n.store, m->font, n.font);
}

static uint64_t feed_with(struct lent *m, struct numbers n, const uint8_t *piece, size_t length)
{
    return clocktoad_feed(m->state, n.state, m->page, n.page, m->line, n.line, m->staging, n.staging,
                          m->store, n.store, m->font, n.font, piece, length, m->report, n.report);
}

static uint64_t close_with(struct lent *m, struct numbers n)
{
    return clocktoad_close(m->state, n.state, m->report, n.report);
}

static uint64_t page_due(const struct job *j) { return clocktoad_page_due(j->m.state, WORDS); }

static bool all_zero(const void *memory, size_t bytes)
{
    const uint8_t *byte = memory;
    for (size_t k = 0; k < bytes; k++)
        if (byte[k])
            return false;
    return true;
}

static void set_glyph(uint8_t *font, unsigned code, const uint16_t word[8])
{
    for (int k = 0; k < 8; k++) {
        font[16 * code + 2 * k] = (uint8_t)(word[k] >> 8);
        font[16 * code + 2 * k + 1] = (uint8_t)word[k];
    }
}

/* Word 0 and the bits above wire 1 are set, to be seen that they are not struck. */
static const uint16_t glyph_a[8] = { 0xFFFF, 0xFE01, 0x0100, 0x0002, 0x0080, 0x0204, 0x0040, 0x8008 };
static const uint16_t columns_a[7] = { 0x001, 0x100, 0x002, 0x080, 0x004, 0x040, 0x008 };

#define FILL UINT64_C(0xA5A5A5A5A5A5A5A5)

/* Opens over memory full of other bytes, with a font of zeros. */
static void open_job(struct job *j, const struct edition *e, uint64_t lines, uint64_t spacing)
{
    j->n = exact(e, lines, spacing);
    j->fed = j->events = j->forms = 0;
    memset(&j->m, 0xA5, offsetof(struct lent, page));
    memset(j->m.page, 0xA5, j->n.page + GUARD);
    memset(j->m.font, 0, sizeof j->m.font);
    EQUAL(open_with(&j->m, j->n), CLOCKTOAD_OPENED);
}

static void open_66(void) { open_job(&the_job, the, 66, 6); }

/* Nothing was written past any slice but the report. */
static void within(const struct job *j)
{
    const struct lent *m = &j->m;
    CHECK(m->state[WORDS] == FILL && m->line[j->n.line] == 0xA5A5);
    CHECK(m->staging[STORE] == 0xA5 && m->store[STORE] == 0xA5 && m->page[j->n.page] == 0xA5);
}

/* Opening zeroed the four stores, and wrote nothing past any of them nor in the report. */
static void opened(const struct job *j)
{
    const struct lent *m = &j->m;
    within(j);
    CHECK(m->report[0] == FILL && all_zero(m->font, sizeof m->font));
    CHECK(all_zero(m->page, j->n.page) && all_zero(m->line, j->n.line * sizeof *m->line));
    CHECK(all_zero(m->staging, STORE) && all_zero(m->store, STORE));
}

/* The bytes that a call on this job's form may be lent: of the page, twice what it needs. */
static size_t lent_bytes(const struct job *j) { return offsetof(struct lent, page) + 2 * j->n.page; }

/* A second job at the same place. */
static void copy_job(struct job *to, const struct job *from)
{
    memcpy(to, from, offsetof(struct job, form));
    memcpy(&to->m, &from->m, lent_bytes(from));
}

/* The two jobs are at the same place, and their memory but for the report is the same. */
static void same_job(const struct job *j, const struct job *other)
{
    size_t from = offsetof(struct lent, line), to = offsetof(struct lent, page) + j->n.page + GUARD;
    EQUAL(j->n.page, other->n.page);
    CHECK(memcmp(j->m.state, other->m.state, WORDS * sizeof(uint64_t)) == 0);
    CHECK(memcmp((const uint8_t *)&j->m + from, (const uint8_t *)&other->m + from, to - from) == 0);
}

static uint64_t feed(struct job *j, const void *piece, size_t length)
{
    return feed_with(&j->m, j->n, piece, length);
}

/* The report tells so many bytes taken, and this note. */
static void reported(const struct job *j, uint64_t taken, uint64_t number, uint64_t place)
{
    EQUAL(j->m.report[0], taken);
    EQUAL(j->m.report[1], number);
    EQUAL(j->m.report[2], place);
    EQUAL(j->m.report[3], 0);
}

static void lend_page(struct job *j, size_t bytes)
{
    CHECK(bytes > 0 && bytes <= PAGE);
    j->n.page = bytes;
    memset(j->m.page, 0, bytes);
    memset(j->m.page + bytes, 0xA5, GUARD);
}

static void record(struct job *j, uint64_t answer)
{
    CHECK(j->events < EVENTS);
    struct event e = { answer, j->m.report[1], answer == CLOCKTOAD_NOTE ? j->m.report[2] : j->fed - 1 };
    j->event[j->events++] = e;
    if (answer != CLOCKTOAD_FORM_FINISHED)
        return;
    if (j->forms < FORMS && j->n.page <= FORM_BYTES) {
        j->form[j->forms].bytes = j->n.page;
        memcpy(j->form[j->forms].dots, j->m.page, j->n.page);
    }
    j->forms++;
    lend_page(j, page_due(j));
}

/* Feeds a piece to its end, the untaken rest offered again each time, and a page of the size due after each form. */
static void send(struct job *j, const void *bytes, size_t length)
{
    const uint8_t *piece = bytes;
    do {
        uint64_t answer = feed(j, piece, length);
        uint64_t taken = j->m.report[0];
        CHECK(answer <= CLOCKTOAD_NOTE && taken <= length && j->m.report[3] == 0);
        CHECK(answer == CLOCKTOAD_USED_UP ? taken == length : taken > 0);
        if (answer != CLOCKTOAD_NOTE)
            CHECK(j->m.report[1] == 0 && j->m.report[2] == 0);
        if (answer != CLOCKTOAD_FORM_FINISHED || j->n.model == CLOCKTOAD_LP2)
            EQUAL(page_due(j), j->n.page);
        j->fed += taken;
        if (answer != CLOCKTOAD_USED_UP)
            record(j, answer);
        piece += taken;
        length -= taken;
    } while (length > 0);
}

#define SEND(j, text) send((j), (text), sizeof(text) - 1)

static void send_text(struct job *j, struct text text) { send(j, text.bytes, text.length); }

static void send_times(struct job *j, const char *bytes, size_t length, unsigned times)
{
    while (times-- > 0)
        send(j, bytes, length);
}

#define TIMES(j, times, text) send_times((j), (text), sizeof(text) - 1, (times))

/* The event last seen is this, and there are `count` in all. */
static void last_event(const struct job *j, size_t count, uint64_t answer, uint64_t number, uint64_t place)
{
    EQUAL(j->events, count);
    const struct event *e = &j->event[count - 1];
    EQUAL(e->answer, answer);
    EQUAL(e->number, number);
    EQUAL(e->place, place);
}

#define ONLY_NOTE(j, number, place) last_event((j), 1, CLOCKTOAD_NOTE, (number), (place))
#define NO_EVENT(j) EQUAL((j)->events, 0)

/* Closing answers this, and reads the state only. */
static void closes(struct job *j, uint64_t answer, uint64_t place)
{
    uint64_t state[WORDS];
    memcpy(state, j->m.state, sizeof state);
    EQUAL(close_with(&j->m, j->n), answer);
    reported(j, 0, 0, place);
    CHECK(memcmp(j->m.state, state, sizeof state) == 0);
}

static bool black(const uint8_t *page, size_t row, size_t position)
{
    return page[row * the->row + position / 8] >> (7 - position % 8) & 1;
}

static void blacken(uint8_t *page, size_t row, size_t position)
{
    page[row * the->row + position / 8] |= (uint8_t)(0x80 >> position % 8);
}

/* The row at which a copy of the job, its line dropped, strikes a plotted column. */
static uint64_t row_of(const struct job *j)
{
    struct job *probe = &probe_job;
    copy_job(probe, j);
    SEND(probe, "\r");
    lend_page(probe, probe->n.page);
    size_t seen = probe->events;
    SEND(probe, "\033d\177\033e\r");
    EQUAL(probe->events, seen);
    size_t rows = probe->n.page / the->row, row = 0;
    while (row < rows && !black(probe->m.page, row, 0))
        row++;
    CHECK(row >= 2 && row + 7 <= rows); /* the bottom seven wires of nine */
    for (size_t k = 0; k < 7; k++)
        CHECK(black(probe->m.page, row + k, 0));
    return row - 2;
}

enum { PLAIN = 0, ELONGATED = 1, UNDERSCORED = 2 };

/* The columns of a character's cell. */
struct cell {
    size_t columns;
    uint16_t wires[20];
};

static struct cell cell_of(const uint16_t wires[7], unsigned style)
{
    struct cell c = { style & ELONGATED ? 20 : 10, { 0 } };
    for (size_t k = 0; k < 7; k++)
        if (style & ELONGATED)
            c.wires[2 * k] = c.wires[2 * k + 1] = wires[k];
        else
            c.wires[k] = wires[k];
    for (size_t k = 0; k < c.columns && style & UNDERSCORED; k += 2)
        c.wires[k] |= 1;
    return c;
}

/* Columns in a line store, from a position on. */
static void put(uint16_t *line, size_t position, size_t step, const uint16_t *wires, size_t count)
{
    for (size_t k = 0; k < count; k++)
        line[position + k * step] |= wires[k];
}

static void put_cell(uint16_t *line, size_t position, size_t step, const uint16_t wires[7], unsigned style)
{
    struct cell c = cell_of(wires, style);
    put(line, position, step, c.wires, c.columns);
}

/* What columns leave on a page: the line at a row, the first at a grid position, a step between columns. */
static void expect_columns(uint8_t *page, size_t row, size_t position, size_t step, const uint16_t *wires, size_t count)
{
    for (size_t k = 0; k < count; k++)
        for (size_t wire = 1; wire <= 9; wire++)
            if (wires[k] >> (9 - wire) & 1)
                blacken(page, row + wire - 1, position + k * step);
}

static void expect_cell(uint8_t *page, size_t row, size_t position, size_t step, const uint16_t wires[7],
                        unsigned style)
{
    struct cell c = cell_of(wires, style);
    expect_columns(page, row, position, step, c.wires, c.columns);
}

static uint16_t expected_line[NUMBERS];
static uint8_t expected_page[PAGE];

static void same_line(const struct job *j)
{
    CHECK(memcmp(j->m.line, expected_line, j->n.line * sizeof *expected_line) == 0);
    memset(expected_line, 0, sizeof expected_line);
}

static void same_page(const struct job *j)
{
    CHECK(memcmp(j->m.page, expected_page, j->n.page) == 0);
    CHECK(all_zero(j->m.line, j->n.line * sizeof(uint16_t)));
    memset(expected_page, 0, j->n.page);
}

static void case_a_to_c(void)
{
    static const unsigned fit[MODELS][2] = { { 132, 66 }, { 136, 68 } }; /* normal and elongated */
    const unsigned normal = fit[the->model][0], elongated = fit[the->model][1];
    struct job *j = &the_job;
    open_66();
    EQUAL(feed(j, "", 0), CLOCKTOAD_USED_UP);
    reported(j, 0, 0, 0);
    closes(j, CLOCKTOAD_CLEAN, 0);

    uint8_t letters[140] = { 0x1B, '<' };
    memset(letters + 2, 'A', sizeof letters - 2);
    open_66();
    EQUAL(feed(j, letters + 2, normal + 1), CLOCKTOAD_NOTE);
    reported(j, normal + 1, CLOCKTOAD_NOTE_LINE_FULL, normal);
    open_66();
    send(j, letters + 2, normal);
    NO_EVENT(j);

    open_66();
    EQUAL(feed(j, letters, 2 + elongated + 1), CLOCKTOAD_NOTE);
    reported(j, 2 + elongated + 1, CLOCKTOAD_NOTE_LINE_FULL, 2 + elongated);
    closes(j, CLOCKTOAD_LINE_UNPRINTED, 0);
    open_66();
    send(j, letters, 2 + elongated);
    NO_EVENT(j);
}

static void case_d_to_g(void)
{
    struct job *j = &the_job;
    open_66();
    SEND(j, "\033d\177");
    NO_EVENT(j);
    expected_line[0] = 127;
    same_line(j);

    open_66();
    SEND(j, "\033d\033\033");
    expected_line[0] = 27;
    same_line(j);
    SEND(j, "\005");
    expected_line[0] = 27;
    expected_line[the->step[0]] = 5;
    same_line(j);
    NO_EVENT(j);

    open_66();
    SEND(j, "\033F\n\0\v");
    NO_EVENT(j);
    EQUAL(row_of(j), 108);

    open_66();
    SEND(j, "\v");
    NO_EVENT(j);
    EQUAL(row_of(j), 0);
}

#define PAYLOAD_B "\000\000\001\004\000\370\001\004\000\040\001\004\000\040\000\330"

static void case_h(void)
{
    struct job *j = &the_job;
    open_66();
    SEND(j, "\033\131\000\020\014\040" PAYLOAD_B "\341");
    NO_EVENT(j);
    closes(j, CLOCKTOAD_CLEAN, 0);
    CHECK(memcmp(j->m.store + 1056, PAYLOAD_B, 16) == 0);
    CHECK(all_zero(j->m.store, 1056) && all_zero(j->m.store + 1072, STORE - 1072));
    CHECK(memcmp(j->m.staging, PAYLOAD_B, 16) == 0 && all_zero(j->m.staging + 16, STORE - 16));

    open_66();
    SEND(j, "\033\131\000\020\014\040" PAYLOAD_B "\340");
    ONLY_NOTE(j, CLOCKTOAD_NOTE_CHECKSUM, 0);
    CHECK(all_zero(j->m.store, STORE));
    CHECK(memcmp(j->m.staging, PAYLOAD_B, 16) == 0);
}

static void case_i(void)
{
    struct job *j = &the_job;
    open_66();
    TIMES(j, 64, "\n");
    EQUAL(row_of(j), 768);
    SEND(j, "\n");
    NO_EVENT(j);
    EQUAL(row_of(j), 780);
    EQUAL(feed(j, "\n", 1), CLOCKTOAD_FORM_FINISHED);
    reported(j, 1, 0, 0);
    EQUAL(row_of(j), 0);
}

#define PLOT_LINE "\033d\033e"

static void case_j(void)
{
    struct job *j = &the_job;
    open_66();
    TIMES(j, 60, "\n");
    TIMES(j, 8, PLOT_LINE "\n");
    EQUAL(row_of(j), 776);
    SEND(j, PLOT_LINE "\n");
    NO_EVENT(j);
    EQUAL(row_of(j), 783);

    open_66();
    TIMES(j, 63, "\n");
    TIMES(j, 3, PLOT_LINE "\n");
    EQUAL(row_of(j), 777);
    SEND(j, PLOT_LINE "\n");
    last_event(j, 1, CLOCKTOAD_FORM_FINISHED, 0, 63 + 3 * 5 + 4);
    EQUAL(row_of(j), 0);
}

static void case_k_and_l(void)
{
    struct job *j = &the_job;
    open_66();
    SEND(j, "\033d\001\033e\n");
    EQUAL(row_of(j), 7);
    open_66();
    SEND(j, "\033d\001\033e\r\n");
    EQUAL(row_of(j), 12);
    NO_EVENT(j);

    open_66();
    SEND(j, "\0330");
    ONLY_NOTE(j, CLOCKTOAD_NOTE_UNKNOWN_COMMAND, 0);
    closes(j, CLOCKTOAD_CLEAN, 0);
}

static void lengths_of_slices(void)
{
    EQUAL(clocktoad_state_words(), 23);
    EQUAL(clocktoad_report_words(), 4);
    EQUAL(clocktoad_staging_bytes(), 2048);
    EQUAL(clocktoad_store_bytes(), 2048);
    EQUAL(clocktoad_font_bytes(), 2048);
    CHECK(CLOCKTOAD_STATE_WORDS == 23 && CLOCKTOAD_REPORT_WORDS == 4);
    CHECK(CLOCKTOAD_STAGING_BYTES == 2048 && CLOCKTOAD_STORE_BYTES == 2048 && CLOCKTOAD_FONT_BYTES == 2048);
    CHECK(CLOCKTOAD_LP2 == 0 && CLOCKTOAD_6215 == 1);
    CHECK(CLOCKTOAD_LP2_LINE_NUMBERS == 2200 && CLOCKTOAD_6215_LINE_NUMBERS == 6800);
    CHECK(CLOCKTOAD_LP2_ROW_POSITIONS == 6600 && CLOCKTOAD_6215_ROW_POSITIONS == 6800);
    CHECK(CLOCKTOAD_LP2_ROW_BYTES == 825 && CLOCKTOAD_6215_ROW_BYTES == 850);
    CHECK(CLOCKTOAD_LP2_LINES_MAX == 99 && CLOCKTOAD_6215_LINES_MAX == 112);
    CHECK(CLOCKTOAD_LP2_PAGE_BYTES_MAX == 980100 && CLOCKTOAD_6215_PAGE_BYTES_MAX == 1142400);
}

static void sizes(void)
{
    EQUAL(clocktoad_line_numbers(the->model), the->line);
    for (uint64_t lines = 0; lines < 300; lines++)
        for (uint64_t spacing = 0; spacing < 12; spacing++) {
            uint64_t rows = spacing == 6 ? 12 : spacing == 8 ? 9 : 0;
            uint64_t bytes = lines <= the->lines ? lines * rows * the->row : 0;
            EQUAL(clocktoad_page_bytes(the->model, lines, spacing), bytes);
            if (bytes > 0)
                EQUAL(bytes, the == wide ? CLOCKTOAD_6215_PAGE_BYTES(lines, spacing)
                                         : CLOCKTOAD_LP2_PAGE_BYTES(lines, spacing));
        }
    EQUAL(clocktoad_page_bytes(the->model, UINT64_MAX, 6), 0);
    EQUAL(clocktoad_page_bytes(the->model, (UINT64_C(1) << 32) + 66, 6), 0);
    EQUAL(clocktoad_page_bytes(the->model, 66, (UINT64_C(1) << 32) + 6), 0);
}

/* Numbers that no model has. */
static void sizes_of_no_model(void)
{
    static const uint64_t model[] = {
        2, 3, 255, 256, 257, 65536, 65537, UINT64_C(1) << 32, (UINT64_C(1) << 32) + 1, UINT64_MAX - 1, UINT64_MAX,
    };
    for (size_t k = 0; k < COUNT_OF(model); k++) {
        EQUAL(clocktoad_line_numbers(model[k]), 0);
        for (uint64_t lines = 0; lines < 120; lines++)
            CHECK(clocktoad_page_bytes(model[k], lines, 6) == 0 && clocktoad_page_bytes(model[k], lines, 8) == 0);
    }
}

static void remember(const struct job *j) { memcpy(&before, &j->m, lent_bytes(j)); }

static void unchanged(const struct job *j) { CHECK(memcmp(&j->m, &before, lent_bytes(j)) == 0); }

typedef void refusal(struct job *j, struct numbers n, uint64_t answer);

/* Also of pieces that would finish a form, give a note, drop the line and zero the download store, or set a form. */
static void refuse_feed(struct job *j, struct numbers n, uint64_t answer)
{
    static const struct text piece[] = {
        TEXT(""), TEXT("A\n\f"), TEXT("\f"), TEXT("\200"), TEXT("\033c\000"), TEXT("\033[2z"),
    };
    remember(j);
    for (size_t k = 0; k < COUNT_OF(piece); k++) {
        EQUAL(feed_with(&j->m, n, (const uint8_t *)piece[k].bytes, piece[k].length), answer);
        unchanged(j);
    }
}

static void refuse_close(struct job *j, struct numbers n, uint64_t answer)
{
    remember(j);
    EQUAL(close_with(&j->m, n), answer);
    unchanged(j);
}

/* A model's shut state: a job's at opening, but for lines, spacing and bottom margin, which are 0. */
static const uint64_t *shut_words(const struct edition *e)
{
    static uint64_t words[MODELS][WORDS];
    static bool known[MODELS];
    uint64_t *shut = words[e->model];
    struct job *j = &other_job;
    if (known[e->model])
        return shut;
    known[e->model] = true;
    open_job(j, e, 1, 8);
    memcpy(shut, j->m.state, WORDS * sizeof *shut);
    open_job(j, e, 2, 6);
    for (int k = 0; k < WORDS; k++)
        if (shut[k] != j->m.state[k])
            shut[k] = 0;
    EQUAL(shut[0], e->model);
    return shut;
}

/* A state of its length is shut, and then put back as it was; all else is not written. */
static void refuse_open(struct job *j, struct numbers n, uint64_t answer)
{
    const uint64_t *shut = shut_words(n.model < MODELS ? &editions[n.model] : &editions[CLOCKTOAD_LP2]);
    remember(j);
    EQUAL(open_with(&j->m, n), answer);
    if (n.state == WORDS) {
        CHECK(memcmp(j->m.state, shut, WORDS * sizeof *shut) == 0);
        EQUAL(page_due(j), 0);
        memcpy(j->m.state, before.state, WORDS * sizeof *shut);
    }
    unchanged(j);
}

enum { WAYS = 8 };

/* Makes what that answer is about wrong, in one of a few ways; it was right, for a form at 6 an inch. */
static void spoil(struct numbers *n, unsigned answer, unsigned way)
{
    const struct edition *e = the, *other = &editions[1 - the->model];
    const uint64_t high = UINT64_C(1) << 32;
    const uint64_t model[WAYS] = { 2, 3, 255, 256 + e->model, 65536 + e->model, high, high + e->model, UINT64_MAX };
    const uint64_t lines[WAYS] = { 0, e->lines + 1, e->lines + 13, 255, 256 + n->lines, 65536 + n->lines,
                                   high + n->lines, UINT64_MAX };
    const uint64_t spacing[WAYS] = { 0, 5, 7, 9, 12, 256 + n->spacing, high + n->spacing, UINT64_MAX };
    const size_t page[WAYS] = { 0, n->page - 1, n->page + 1, 1, e->row, n->page / 12 * 9, 2 * n->page,
                                n->page / e->row * other->row };
    const size_t line[WAYS] = { 0, e->line - 1, e->line + 1, 1, 1320, e->line / 2, 2 * e->line, other->line };
    static const size_t store[WAYS] = { 0, STORE - 1, STORE + 1, 1, 16, 128, STORE / 2, 2 * STORE };
    static const size_t state[WAYS] = { 0, WORDS - 1, WORDS + 1, 1, REPORT, WORDS / 2, 2 * WORDS, MUCH * WORDS };
    static const size_t report[WAYS] = { 0, REPORT - 1, REPORT + 1, 1, REPORT / 2, 2 * REPORT, WORDS, MUCH * REPORT };
    switch (answer) {
    case CLOCKTOAD_BAD_MODEL: n->model = model[way]; break;
    case CLOCKTOAD_BAD_LINES: n->lines = lines[way]; break;
    case CLOCKTOAD_BAD_SPACING: n->spacing = spacing[way]; break;
    case CLOCKTOAD_BAD_PAGE: n->page = page[way]; break;
    case CLOCKTOAD_BAD_LINE: n->line = line[way]; break;
    case CLOCKTOAD_BAD_STAGING: n->staging = store[way]; break;
    case CLOCKTOAD_BAD_STORE: n->store = store[way]; break;
    case CLOCKTOAD_BAD_FONT: n->font = store[way]; break;
    case CLOCKTOAD_UNSOUND:
    case CLOCKTOAD_STATE_LENGTH: n->state = state[way]; break;
    case CLOCKTOAD_REPORT_LENGTH: n->report = report[way]; break;
    default: abort();
    }
}

enum { OPENING = 9, FEEDING = 7, CLOSING = 2 };
static const unsigned opening_order[OPENING] = { 23, 18, 19, 11, 12, 13, 14, 15, 21 };
static const unsigned feeding_order[FEEDING] = { 10, 11, 12, 13, 14, 15, 22 };
static const unsigned closing_order[CLOSING] = { 10, 22 };

/* Each fault alone, with each later one, and with the later ones up to each: the first of them is answered. */
static void refuse_in_order(struct job *j, const unsigned *order, size_t count, refusal *refuse)
{
    for (size_t first = 0; first < count; first++)
        for (unsigned way = 0; way < WAYS; way++) {
            struct numbers one = j->n, more;
            spoil(&one, order[first], way);
            refuse(j, one, order[first]);
            more = one;
            for (size_t second = first + 1; second < count; second++) {
                for (unsigned other = 0; other < WAYS; other++) {
                    struct numbers two = one;
                    spoil(&two, order[second], other);
                    refuse(j, two, order[first]);
                }
                spoil(&more, order[second], way);
                refuse(j, more, order[first]);
            }
        }
}

/* Words that are no sound state: 10, with nothing else wrong, with one fault, and with all but the length. */
static void refuse_state(struct job *j, unsigned turn)
{
    struct numbers one = j->n, all = j->n;
    unsigned way = turn / FEEDING % WAYS;
    spoil(&one, feeding_order[turn % FEEDING], way);
    for (size_t k = 1; k < FEEDING; k++)
        spoil(&all, feeding_order[k], way);
    const struct numbers wrong[] = { j->n, one, all };
    for (size_t k = 0; k < COUNT_OF(wrong); k++) {
        refuse_feed(j, wrong[k], CLOCKTOAD_UNSOUND);
        refuse_close(j, wrong[k], CLOCKTOAD_UNSOUND);
    }
    EQUAL(page_due(j), 0);
    unchanged(j);
}

/* The report alone is wrong. */
static void refuse_report(struct job *j)
{
    for (unsigned way = 0; way < WAYS; way++) {
        struct numbers n = j->n;
        spoil(&n, CLOCKTOAD_REPORT_LENGTH, way);
        refuse_feed(j, n, CLOCKTOAD_REPORT_LENGTH);
        refuse_close(j, n, CLOCKTOAD_REPORT_LENGTH);
    }
}

/* Other bytes in all lent memory but the state, as a caller may have them there. */
static void make_strange(struct job *j)
{
    uint8_t *byte = (uint8_t *)&j->m;
    for (size_t k = WORDS * sizeof(uint64_t); k < lent_bytes(j); k++)
        byte[k] = (uint8_t)(k * 7 + 3);
}

static struct job *strange_job(const char *sent)
{
    struct job *j = &the_job;
    open_job(j, the, 3, 6);
    send(j, sent, strlen(sent));
    make_strange(j);
    return j;
}

static void every_form(void)
{
    struct job *j = &the_job;
    for (uint64_t lines = 1; lines <= the->lines; lines++)
        for (uint64_t spacing = 6; spacing <= 8; spacing += 2) {
            open_job(j, the, lines, spacing);
            opened(j);
            EQUAL(j->m.state[0], the->model);
            EQUAL(page_due(j), lines * (spacing == 6 ? 12 : 9) * the->row);
            closes(j, CLOCKTOAD_CLEAN, 0);
        }
}

static uint64_t seed = 1;

static uint64_t random_word(void)
{
    seed ^= seed << 13;
    seed ^= seed >> 7;
    seed ^= seed << 17;
    return seed;
}

static void random_words(uint64_t *state)
{
    for (int k = 0; k < WORDS; k++)
        state[k] = random_word();
}

/* Whatever the state was. Memory is tested against the model and the form that are asked for. */
static void refused_openings(void)
{
    struct job *j = strange_job("A");
    refuse_in_order(j, opening_order, OPENING, refuse_open);
    closes(j, CLOCKTOAD_LINE_UNPRINTED, 0);
    random_words(j->m.state);
    refuse_in_order(j, opening_order, OPENING, refuse_open);
    struct numbers n = j->n;
    n.spacing = 8;
    refuse_open(j, n, CLOCKTOAD_BAD_PAGE);
    n = j->n;
    n.lines--;
    refuse_open(j, n, CLOCKTOAD_BAD_PAGE);
    n.lines = the->lines;
    refuse_open(j, n, CLOCKTOAD_BAD_PAGE);
    n.lines = the->lines + 1;
    refuse_open(j, n, CLOCKTOAD_BAD_LINES);
    n = j->n;
    n.model = 1 - the->model;
    refuse_open(j, n, CLOCKTOAD_BAD_PAGE);
    n.page = n.page / the->row * editions[n.model].row;
    refuse_open(j, n, CLOCKTOAD_BAD_LINE);
}

static void refused_feedings(void)
{
    static const char *const sent[] = { "", "A", "\033" }; /* each at the number of its closing */
    for (uint64_t closing = 0; closing < 3; closing++) {
        struct job *j = strange_job(sent[closing]);
        refuse_in_order(j, feeding_order, FEEDING, refuse_feed);
        refuse_in_order(j, closing_order, CLOSING, refuse_close);
        EQUAL(feed(j, "", 0), CLOCKTOAD_USED_UP);
        closes(j, closing, 0);
    }
}

/* What was refused for its report alone is taken whole when it is offered again. */
static void refused_reports(void)
{
    struct job *j = strange_job("A");
    refuse_report(j);
    EQUAL(feed(j, "\200", 1), CLOCKTOAD_NOTE);
    reported(j, 1, CLOCKTOAD_NOTE_INVALID, 1);
    refuse_report(j);
    EQUAL(feed(j, "\f", 1), CLOCKTOAD_FORM_FINISHED);
    reported(j, 1, 0, 0);
    refuse_report(j);
    SEND(j, "\033d\001\033");
    refuse_report(j);
    closes(j, CLOCKTOAD_COMMAND_UNFINISHED, 6);
}

static void refused_states(void)
{
    struct job *j = strange_job("A");
    for (unsigned turn = 0; turn < FEEDING * WAYS; turn++) {
        memcpy(j->m.state, shut_words(the), WORDS * sizeof(uint64_t));
        refuse_state(j, turn);
        memset(j->m.state, turn % 2 ? 0xFF : 0, WORDS * sizeof(uint64_t));
        refuse_state(j, turn);
        random_words(j->m.state);
        refuse_state(j, turn);
    }
}

/* The page due of words that are too few or too many. */
static void due_of_no_state(void)
{
    struct job *j = strange_job("A");
    remember(j);
    EQUAL(page_due(j), 3 * 12 * the->row);
    for (unsigned way = 0; way < WAYS; way++) {
        struct numbers n = j->n;
        spoil(&n, CLOCKTOAD_UNSOUND, way);
        EQUAL(clocktoad_page_due(j->m.state, n.state), 0);
    }
    unchanged(j);
}

/* The words of the state that tests forge. */
enum word {
    MODEL, LINES, SPACING, TOP, BOTTOM, JOB, ROW, POSITION, FRESH, ON_PLOT_LINE, PLOTTING, PITCH, ELONGATION,
    UNDERSCORE, DOWNLOADED, KIND, PLACE, COUNT, ADDRESS, TAKEN, BYTE, NAMED
};

static int word[NAMED];
static uint64_t bracket_kind;

/* Twelve bytes that do nothing, to bring places and lengths past the numbers of kinds. */
#define TWELVE "\a\a\a\a\a\a\a\a\a\a\a\a"

#define HEADER "\033Y\000\061\010\063"
#define TWELVE_X "xxxxxxxxxxxx"

/* The layout but for the first word is the library's own: a word is the only one that this moves so, on a 6215. */
static const struct { const char *first; struct text then; uint64_t was, is; } moves[NAMED] = {
    [LINES] = { "", TEXT("\033[67r"), 66, 67 },
    [SPACING] = { "", TEXT("\033[2z"), 6, 8 },
    [TOP] = { "", TEXT("\033[;5r"), 1, 5 },
    [BOTTOM] = { "", TEXT("\033[;;60r"), 66, 60 },
    [JOB] = { "", TEXT(TWELVE), 0, 12 },
    [ROW] = { "", TEXT("\n"), 0, 12 },
    [POSITION] = { "", TEXT("A"), 0, 50 },
    [FRESH] = { "", TEXT("A"), 1, 0 },
    [ON_PLOT_LINE] = { "\033d\033e", TEXT("\r"), 1, 0 },
    [PLOTTING] = { "\033d", TEXT("\033e"), 1, 0 },
    [PITCH] = { "", TEXT("\033>"), 0, 1 },
    [ELONGATION] = { "", TEXT("\033<"), 0, 1 },
    [UNDERSCORE] = { "", TEXT("\033a"), 0, 1 },
    [DOWNLOADED] = { "", TEXT("\033N\004\000"), 0, 1 },
    [PLACE] = { TWELVE, TEXT("\033"), 0, 12 },
    [COUNT] = { "", TEXT(HEADER), 0, 49 },
    [ADDRESS] = { "", TEXT(HEADER), 0, 2099 },
    [TAKEN] = { "", TEXT(HEADER TWELVE_X), 0, 12 },
    [BYTE] = { "", TEXT(HEADER TWELVE_X), 0, 12 * 'x' % 256 },
};

/* The one word of the state that went from `was` to `is` or, if not `so`, that changed in another way; else -1. */
static int moved_word(const uint64_t *was_state, const uint64_t *is_state, uint64_t was, uint64_t is, bool so)
{
    int found = -1;
    for (int k = 0; k < WORDS; k++) {
        if (was_state[k] == is_state[k] || (was_state[k] == was && is_state[k] == is) != so)
            continue;
        if (found >= 0)
            return -1;
        found = k;
    }
    return found;
}

/* A byte after ESC moves the kind and the job's length alone. */
static int find_kind(struct job *j)
{
    uint64_t state[WORDS];
    open_job(j, wide, 66, 6);
    SEND(j, TWELVE "\033");
    memcpy(state, j->m.state, sizeof state);
    SEND(j, "c");
    return moved_word(state, j->m.state, 13, 14, false);
}

static int find_word(struct job *j, enum word w)
{
    uint64_t state[WORDS];
    open_job(j, wide, 66, 6);
    send(j, moves[w].first, strlen(moves[w].first));
    memcpy(state, j->m.state, sizeof state);
    send_text(j, moves[w].then);
    return moved_word(state, j->m.state, moves[w].was, moves[w].is, true);
}

static void find_words(void)
{
    struct job *j = &the_job;
    for (enum word w = MODEL; w < NAMED; w++) {
        word[w] = w == MODEL ? 0 : w == KIND ? find_kind(j) : find_word(j, w);
        untested += word[w] < 0;
    }
    open_job(j, wide, 66, 6);
    SEND(j, "\033[");
    bracket_kind = word[KIND] < 0 ? 0 : j->m.state[word[KIND]];
}

static void forge(struct job *j, enum word w, uint64_t number)
{
    if (word[w] >= 0)
        j->m.state[word[w]] = number;
}

/* The job, whose state is forged, answers this to an empty piece. */
static void answers(struct job *j, uint64_t answer)
{
    static unsigned turn;
    if (answer == CLOCKTOAD_UNSOUND) {
        refuse_state(j, turn++);
        return;
    }
    EQUAL(feed(j, "", 0), answer);
    CHECK(close_with(&j->m, j->n) != CLOCKTOAD_UNSOUND);
    CHECK(page_due(j) != 0 && (page_due(j) == j->n.page) == (answer == CLOCKTOAD_USED_UP));
}

/* With that word of the state set to a number. */
static void forged(enum word w, uint64_t number, uint64_t answer)
{
    struct job *j = &the_job;
    if (word[w] < 0)
        return;
    uint64_t kept = j->m.state[word[w]];
    forge(j, w, number);
    answers(j, answer);
    forge(j, w, kept);
}

static void forged_numbers(void)
{
    struct job *j = &the_job;
    open_66();
    forged(ROW, 783, CLOCKTOAD_USED_UP);
    forged(ROW, 784, CLOCKTOAD_UNSOUND);
    forged(ROW, UINT64_MAX, CLOCKTOAD_UNSOUND);
    forged(ROW, UINT64_MAX - 8, CLOCKTOAD_UNSOUND);
    for (int pitch = 0; pitch < 2; pitch++) {
        open_66();
        send(j, pitch ? "\033>A" : "\033?A", 3);
        forged(POSITION, 0, CLOCKTOAD_USED_UP);
        forged(POSITION, the->width[pitch], CLOCKTOAD_USED_UP);
        forged(POSITION, the->width[pitch] + 1, CLOCKTOAD_UNSOUND);
        SEND(j, "\n");
        forged(POSITION, 10, CLOCKTOAD_UNSOUND);
    }
    open_66();
    SEND(j, "AAAAA\033");
    forged(PLACE, 4, CLOCKTOAD_USED_UP);
    forged(PLACE, 6, CLOCKTOAD_UNSOUND);
    open_66();
    SEND(j, "\033Y\000\061");
    forged(COUNT, 65535, CLOCKTOAD_USED_UP);
    forged(COUNT, 65536, CLOCKTOAD_UNSOUND);
    SEND(j, "\010\000xx");
    forged(COUNT, 2, CLOCKTOAD_USED_UP);
    forged(COUNT, 1, CLOCKTOAD_UNSOUND);
}

/* The words of the form, set together, and the bytes of the page that is then due; 0: the state is unsound. */
static const struct { uint64_t model, lines, spacing, top, bottom, row, due; } form_words[] = {
    { 0, 66, 6, 1, 66, 0, 653400 }, { 0, 66, 6, 1, 66, 783, 653400 }, { 0, 66, 6, 1, 66, 784, 0 },
    { 0, 66, 8, 1, 66, 585, 490050 }, { 0, 66, 8, 1, 66, 586, 0 }, { 0, 1, 8, 1, 1, 0, 7425 }, { 0, 1, 8, 1, 1, 1, 0 },
    { 0, 99, 6, 1, 99, 0, 980100 }, { 0, 99, 8, 1, 99, 882, 735075 }, { 0, 99, 8, 1, 99, 883, 0 },
    { 0, 100, 6, 1, 100, 0, 0 }, { 0, 100, 6, 1, 99, 0, 0 }, { 0, 112, 8, 1, 112, 0, 0 }, { 0, 0, 6, 1, 0, 0, 0 },
    { 0, 66, 7, 1, 66, 0, 0 }, { 0, 66, 0, 1, 66, 0, 0 }, { 0, 66, 12, 1, 66, 0, 0 }, { 0, 66, 262, 1, 66, 0, 0 },
    /* an LP2's margins are 1 and L */
    { 0, 66, 6, 2, 66, 12, 0 }, { 0, 66, 6, 66, 66, 780, 0 }, { 0, 66, 6, 0, 66, 0, 0 }, { 0, 66, 6, 1, 65, 0, 0 },
    { 0, 66, 6, 1, 67, 0, 0 }, { 0, 66, 6, 1, 1, 0, 0 }, { 0, 66, 6, 1, 0, 0, 0 }, { 0, 66, 6, 2, 65, 12, 0 },
    { 0, 67, 6, 1, 66, 0, 0 }, { 0, 65, 6, 1, 66, 0, 0 }, { 0, 66, 6, 257, 66, 0, 0 }, { 0, 66, 6, 1, 322, 0, 0 },
    { 1, 66, 6, 1, 66, 0, 673200 }, { 1, 66, 6, 1, 66, 783, 673200 }, { 1, 66, 6, 1, 66, 784, 0 },
    { 1, 112, 6, 1, 112, 0, 1142400 }, { 1, 112, 6, 1, 112, 1335, 1142400 }, { 1, 112, 6, 1, 112, 1336, 0 },
    { 1, 112, 8, 1, 112, 999, 856800 }, { 1, 112, 8, 1, 112, 1000, 0 }, { 1, 100, 6, 1, 100, 0, 1020000 },
    { 1, 113, 6, 1, 112, 0, 0 }, { 1, 113, 8, 1, 113, 0, 0 }, { 1, 0, 6, 1, 0, 0, 0 }, { 1, 0, 6, 0, 0, 0, 0 },
    { 1, 66, 7, 1, 66, 0, 0 }, { 1, 66, 0, 1, 66, 0, 0 }, { 1, 66, 264, 1, 66, 0, 0 },
    /* the top margin and the row */
    { 1, 66, 6, 0, 66, 0, 0 }, { 1, 66, 6, 2, 66, 12, 673200 }, { 1, 66, 6, 2, 66, 11, 0 }, { 1, 66, 6, 2, 66, 0, 0 },
    { 1, 66, 6, 66, 66, 780, 673200 }, { 1, 66, 6, 66, 66, 783, 673200 }, { 1, 66, 6, 66, 66, 779, 0 },
    { 1, 66, 6, 66, 66, 784, 0 }, { 1, 66, 6, 67, 66, 792, 0 }, { 1, 66, 6, 67, 67, 792, 0 },
    { 1, 66, 6, 67, 66, 780, 0 }, { 1, 66, 6, 257, 66, 0, 0 }, { 1, 66, 6, UINT64_MAX, 66, 0, 0 },
    { 1, 66, 6, UINT64_C(1) << 62, 66, 780, 0 },
    /* the bottom margin and the row */
    { 1, 66, 6, 1, 1, 0, 673200 }, { 1, 66, 6, 1, 1, 3, 673200 }, { 1, 66, 6, 1, 1, 4, 0 }, { 1, 66, 6, 1, 0, 0, 0 },
    { 1, 66, 6, 1, 65, 771, 673200 }, { 1, 66, 6, 1, 65, 772, 0 }, { 1, 66, 6, 1, 67, 0, 0 },
    { 1, 66, 6, 1, 322, 0, 0 }, { 1, 66, 6, 1, UINT64_MAX, 0, 0 }, { 1, 66, 6, 1, (UINT64_C(1) << 62) + 1, 0, 0 },
    { 1, 66, 6, 3, 2, 24, 0 }, { 1, 66, 6, 3, 2, 12, 0 }, { 1, 67, 6, 1, 66, 0, 683400 }, { 1, 65, 6, 1, 66, 0, 0 },
    { 1, 66, 8, 5, 10, 36, 504900 }, { 1, 66, 8, 5, 10, 35, 0 }, { 1, 66, 8, 5, 10, 81, 504900 },
    { 1, 66, 8, 5, 10, 82, 0 }, { 1, 66, 8, 5, 5, 36, 504900 }, { 1, 66, 8, 5, 5, 37, 0 }, { 1, 66, 6, 5, 10, 36, 0 },
    { 2, 66, 6, 1, 66, 0, 0 }, { 3, 66, 6, 1, 66, 0, 0 }, { 255, 66, 6, 1, 66, 0, 0 }, { 256, 66, 6, 1, 66, 0, 0 },
    { 257, 66, 6, 1, 66, 0, 0 }, { UINT64_C(1) << 32, 66, 6, 1, 66, 0, 0 }, { UINT64_MAX, 66, 6, 1, 66, 0, 0 },
};

/* A state of one model may become one of the other: nothing but its words tells. */
static void forged_forms(void)
{
    struct job *j = &the_job;
    for (enum word w = MODEL; w <= ROW; w++)
        if (word[w] < 0)
            return;
    for (size_t k = 0; k < COUNT_OF(form_words); k++) {
        open_66();
        forge(j, MODEL, form_words[k].model);
        forge(j, LINES, form_words[k].lines);
        forge(j, SPACING, form_words[k].spacing);
        forge(j, TOP, form_words[k].top);
        forge(j, BOTTOM, form_words[k].bottom);
        forge(j, ROW, form_words[k].row);
        EQUAL(page_due(j), form_words[k].due);
        if (form_words[k].due == 0) {
            answers(j, CLOCKTOAD_UNSOUND);
            continue;
        }
        if (form_words[k].due != j->n.page)
            answers(j, CLOCKTOAD_BAD_PAGE);
        j->n = exact(&editions[form_words[k].model], form_words[k].lines, form_words[k].spacing);
        answers(j, CLOCKTOAD_USED_UP);
        closes(j, CLOCKTOAD_CLEAN, 0);
    }
}

/* What a job of the 6215 leaves, taken for an LP2's: sound or not. */
static void forged_models(void)
{
    static const struct { struct text sent; bool sound; } sent[] = {
        { TEXT(""), true }, { TEXT("\n"), true }, { TEXT("AAAAAAAAAAAAAAAAAAAAAAAAAA"), true },
        { TEXT("AAAAAAAAAAAAAAAAAAAAAAAAAAA"), false }, /* 27 cells of 50 positions; an LP2's line has 1,320 */
        { TEXT("\033["), false }, { TEXT("\033[;2r"), false }, { TEXT("\033[;;65r"), false },
        { TEXT("\033[65;;65r"), true }, { TEXT("\033[99;;99r"), true }, { TEXT("\033[100;;100r"), false },
        { TEXT("\033[2z"), true },
    };
    struct job *j = &the_job;
    for (size_t k = 0; k < COUNT_OF(sent); k++) {
        open_66();
        send_text(j, sent[k].sent);
        forged(MODEL, 0, sent[k].sound ? CLOCKTOAD_BAD_PAGE : CLOCKTOAD_UNSOUND);
        forged(MODEL, 1, CLOCKTOAD_USED_UP);
        forged(MODEL, 2, CLOCKTOAD_UNSOUND);
    }
}

/* A tab on the last line of a form, whose lines are then one less. */
static void forged_tabs(void)
{
    static const uint8_t last[] = { 2, 3, 32, 33, 63, 64, 65, 66, 98, 99, 100, 111, 112 };
    struct job *j = &the_job;
    for (size_t k = 0; k < COUNT_OF(last) && last[k] <= the->lines; k++)
        for (int below = 0; below < 2; below++) {
            uint8_t list[4] = { 0x1B, 'F', (uint8_t)(last[k] - below), 0 };
            open_job(j, the, last[k], 6);
            send(j, list, sizeof list);
            NO_EVENT(j);
            forge(j, BOTTOM, last[k] - 1);
            forged(LINES, last[k] - 1, below ? CLOCKTOAD_BAD_PAGE : CLOCKTOAD_UNSOUND);
        }
}

enum { ON_LP2 = 1, ON_6215 = 2, ON_BOTH = 3 };

static bool is_on(unsigned models) { return models >> the->model & 1; }

/* The words of a begun command that it has a use for, a bit for each. */
enum use {
    NO_WORD = 0,
    A_PLACE = 1 << (PLACE - PLACE),
    A_COUNT = 1 << (COUNT - PLACE),
    A_BYTE = 1 << (BYTE - PLACE),
    ALL_FIVE = (1 << (BYTE - PLACE + 1)) - 1
};

static const struct { struct text sent; unsigned use, on; } begun[] = {
    { TEXT(""), NO_WORD, ON_BOTH }, { TEXT("A"), NO_WORD, ON_BOTH }, { TEXT("\033d"), NO_WORD, ON_BOTH },
    { TEXT("\033"), A_PLACE, ON_BOTH }, { TEXT("\033d\033"), A_PLACE, ON_BOTH }, { TEXT("\033F"), A_PLACE, ON_BOTH },
    { TEXT("\033F\001"), A_PLACE, ON_BOTH }, { TEXT("\033c"), A_PLACE, ON_BOTH }, { TEXT("\033N"), A_PLACE, ON_BOTH },
    { TEXT("\033N\004"), A_PLACE | A_BYTE, ON_BOTH }, { TEXT("\033Y"), A_PLACE, ON_BOTH },
    { TEXT("\033Y\000"), A_PLACE | A_BYTE, ON_BOTH }, { TEXT("\033Y\000\061"), A_PLACE | A_COUNT, ON_BOTH },
    { TEXT("\033Y\000\061\010"), A_PLACE | A_COUNT | A_BYTE, ON_BOTH }, { TEXT(HEADER), ALL_FIVE, ON_BOTH },
    { TEXT(HEADER TWELVE_X), ALL_FIVE, ON_BOTH }, { TEXT("\033Y\000\000\010\000"), ALL_FIVE, ON_BOTH },
    { TEXT("\033Y\000\001\010\000x"), ALL_FIVE, ON_BOTH }, { TEXT("\033["), ALL_FIVE, ON_6215 },
    { TEXT("\033[12;34;56"), ALL_FIVE, ON_6215 }, { TEXT("A\033[;"), ALL_FIVE, ON_6215 },
};

enum { BEGUN = COUNT_OF(begun) };

static void begin(size_t k)
{
    open_job(&the_job, the, 1, 6);
    send_text(&the_job, begun[k].sent);
}

/* Numbers that no word can be: past the range of all but the tabs', where they are lines past the form's only one. */
static void forged_words(void)
{
    for (size_t k = 0; k < BEGUN; k++) {
        if (!is_on(begun[k].on))
            continue;
        begin(k);
        for (int w = 0; w < WORDS; w++)
            for (int way = 0; way < 2; way++) {
                uint64_t kept = the_job.m.state[w];
                the_job.m.state[w] = way ? UINT64_MAX : UINT64_C(1) << 32;
                answers(&the_job, CLOCKTOAD_UNSOUND);
                the_job.m.state[w] = kept;
            }
    }
}

/* The job goes on as if that word of its state had not been set to a number, and the next call leaves 0 there. */
static void unread(enum word w, uint64_t number)
{
    struct job *j = &the_job, *other = &other_job;
    for (size_t length = 0; length < 2; length++) {
        copy_job(other, j);
        forge(other, w, number);
        EQUAL(feed(other, "\0", length), feed(j, "\0", length));
        CHECK(memcmp(&other->m, &j->m, lent_bytes(j)) == 0);
        CHECK(length > 0 || word[w] < 0 || other->m.state[word[w]] == 0);
    }
}

/* The most that a word with a range of its own can be. */
static const struct { enum word word; uint64_t most; } range[] = {
    { MODEL, 1 }, { JOB, UINT32_MAX }, { FRESH, 1 }, { ON_PLOT_LINE, 1 }, { PLOTTING, 1 }, { PITCH, 1 },
    { ELONGATION, 1 }, { UNDERSCORE, 1 }, { DOWNLOADED, 1 }, { KIND, 11 }, { PLACE, UINT32_MAX }, { COUNT, UINT16_MAX },
    { ADDRESS, UINT16_MAX }, { TAKEN, UINT16_MAX }, { BYTE, UINT8_MAX },
};

/* A number of ESC [ is kept as one more. */
static uint64_t most_of(size_t r, bool in_bracket)
{
    bool number = range[r].word == COUNT || range[r].word == ADDRESS || range[r].word == TAKEN;
    return range[r].most + (number && in_bracket ? 1 : 0);
}

/* Ranges are tested whatever is begun, also of words that it has no use for; those are then not read. */
static void forged_ranges(void)
{
    for (size_t r = 0; r < COUNT_OF(range); r++)
        for (size_t k = 0; k < BEGUN; k++) {
            if (!is_on(begun[k].on))
                continue;
            uint64_t most = most_of(r, begun[k].on == ON_6215);
            begin(k);
            forged(range[r].word, most + 1, CLOCKTOAD_UNSOUND);
            if (range[r].word < PLACE || begun[k].use >> (range[r].word - PLACE) & 1)
                continue;
            forged(range[r].word, most, CLOCKTOAD_USED_UP);
            unread(range[r].word, most);
        }
}

/* ESC [ is the 6215's alone, and no command of plot mode. */
static void forged_kinds(void)
{
    struct job *j = &the_job;
    open_66();
    SEND(j, "\033");
    forged(KIND, bracket_kind, the == wide ? CLOCKTOAD_USED_UP : CLOCKTOAD_UNSOUND);
    open_66();
    SEND(j, "\033d\033");
    forged(KIND, bracket_kind, CLOCKTOAD_UNSOUND);
}

/* The last bytes of a job that can have no more. */
static void job_limit(void)
{
    struct job *j = &the_job;
    if (word[JOB] < 0)
        return;
    open_66();
    SEND(j, "\0\0\0\0\0");
    forged(JOB, CLOCKTOAD_JOB_LIMIT, CLOCKTOAD_USED_UP);
    forged(JOB, CLOCKTOAD_JOB_LIMIT + 1, CLOCKTOAD_UNSOUND);
    forge(j, JOB, CLOCKTOAD_JOB_LIMIT - 6);
    EQUAL(feed(j, "A\200AA", 4), CLOCKTOAD_NOTE);
    reported(j, 2, CLOCKTOAD_NOTE_INVALID, CLOCKTOAD_JOB_LIMIT - 5);
    EQUAL(feed(j, "A\rAA\033\033", 6), CLOCKTOAD_JOB_FULL);
    reported(j, 4, 0, 0);
    EQUAL(feed(j, "\n", 1), CLOCKTOAD_JOB_FULL);
    reported(j, 0, 0, 0);
    EQUAL(feed(j, "", 0), CLOCKTOAD_USED_UP);
    refuse_report(j);
    closes(j, CLOCKTOAD_LINE_UNPRINTED, 0);

    open_66();
    forge(j, JOB, CLOCKTOAD_JOB_LIMIT - 2);
    EQUAL(feed(j, "\r\200\n", 3), CLOCKTOAD_NOTE);
    reported(j, 2, CLOCKTOAD_NOTE_INVALID, CLOCKTOAD_JOB_LIMIT - 1);
    EQUAL(feed(j, "\n", 1), CLOCKTOAD_JOB_FULL);
    open_66();
    forge(j, JOB, CLOCKTOAD_JOB_LIMIT - 1);
    EQUAL(feed(j, "\033\033", 2), CLOCKTOAD_JOB_FULL);
    reported(j, 1, 0, 0);
    closes(j, CLOCKTOAD_COMMAND_UNFINISHED, CLOCKTOAD_JOB_LIMIT - 1);
}

static void job_limit_in_brackets(void)
{
    struct job *j = &the_job;
    if (word[JOB] < 0)
        return;
    open_66();
    forge(j, JOB, CLOCKTOAD_JOB_LIMIT - 3);
    EQUAL(feed(j, "\033[2z", 4), CLOCKTOAD_JOB_FULL);
    reported(j, 3, 0, 0);
    closes(j, CLOCKTOAD_COMMAND_UNFINISHED, CLOCKTOAD_JOB_LIMIT - 3);
    EQUAL(page_due(j), 66 * 12 * 850);

    open_66();
    forge(j, JOB, CLOCKTOAD_JOB_LIMIT - 4);
    EQUAL(feed(j, "\033[2z\n", 5), CLOCKTOAD_FORM_FINISHED);
    reported(j, 4, 0, 0);
    lend_page(j, 66 * 9 * 850);
    EQUAL(feed(j, "\n", 1), CLOCKTOAD_JOB_FULL);
    reported(j, 0, 0, 0);

    open_66();
    forge(j, JOB, CLOCKTOAD_JOB_LIMIT - 4);
    EQUAL(feed(j, "\033[3z\n", 5), CLOCKTOAD_NOTE);
    reported(j, 4, CLOCKTOAD_NOTE_INVALID, CLOCKTOAD_JOB_LIMIT - 4);
    EQUAL(feed(j, "\n", 1), CLOCKTOAD_JOB_FULL);
}

static bool in_set(uint8_t byte, const char *set, size_t length) { return memchr(set, byte, length) != NULL; }

/* Each byte alone at the start of a job. */
static void every_byte(void)
{
    struct job *j = &the_job;
    for (unsigned b = 0; b < 256; b++) {
        uint8_t byte = (uint8_t)b;
        bool prints = b >= 0x20 && b <= 0x7E;
        bool known = prints || in_set(byte, "\x00\x07\x7F\x0A\x0B\x0C\x0D\x1B", 8);
        open_job(j, the, 1, 8);
        send(j, &byte, 1);
        if (!known)
            ONLY_NOTE(j, CLOCKTOAD_NOTE_INVALID, 0);
        else if (byte == 0x0C || byte == 0x0A) /* the form's only line */
            last_event(j, 1, CLOCKTOAD_FORM_FINISHED, 0, 0);
        else
            NO_EVENT(j);
        closes(j, prints ? CLOCKTOAD_LINE_UNPRINTED : byte == 0x1B ? CLOCKTOAD_COMMAND_UNFINISHED : CLOCKTOAD_CLEAN, 0);
    }
}

/* Each byte after ESC, on a fresh line and on another. */
static void every_command(void)
{
    struct job *j = &the_job;
    for (unsigned b = 0; b < 256; b++) {
        uint8_t job[3] = { 'A', 0x1B, (uint8_t)b };
        bool longer = in_set(job[2], "FcYN[", the == wide ? 5 : 4);
        bool fresh_only = in_set(job[2], "d>?", the == wide ? 1 : 3);
        bool known = longer || in_set(job[2], "56<=>?abdeO", 11);
        for (int started = 0; started < 2; started++) {
            open_job(j, the, 1, 8);
            send(j, job + 1 - started, 2 + (size_t)started);
            if (!known)
                ONLY_NOTE(j, CLOCKTOAD_NOTE_UNKNOWN_COMMAND, (uint64_t)started);
            else if (fresh_only && started)
                ONLY_NOTE(j, CLOCKTOAD_NOTE_INVALID, 1);
            else
                NO_EVENT(j);
            if (longer)
                closes(j, CLOCKTOAD_COMMAND_UNFINISHED, (uint64_t)started);
            else
                closes(j, started || b == 'd' ? CLOCKTOAD_LINE_UNPRINTED : CLOCKTOAD_CLEAN, 0);
        }
    }
}

/* Each byte in plot mode, alone and after ESC. */
static void every_plot_byte(void)
{
    struct job *j = &the_job;
    for (unsigned b = 0; b < 256; b++) {
        uint8_t byte = (uint8_t)b;
        open_job(j, the, 1, 8);
        SEND(j, "\033d");
        send(j, &byte, 1);
        if (b >= 0x80)
            ONLY_NOTE(j, CLOCKTOAD_NOTE_INVALID, 2);
        else
            NO_EVENT(j);
        expected_line[0] = b < 0x80 && b != 0x1B ? (uint16_t)b : 0;
        same_line(j);
        closes(j, b == 0x1B ? CLOCKTOAD_COMMAND_UNFINISHED : CLOCKTOAD_LINE_UNPRINTED, b == 0x1B ? 2 : 0);

        open_job(j, the, 1, 8);
        SEND(j, "\033d\033");
        send(j, &byte, 1);
        if (b != 0x1B && b != 'e')
            ONLY_NOTE(j, CLOCKTOAD_NOTE_INVALID, 2);
        else
            NO_EVENT(j);
        expected_line[0] = b == 0x1B ? 0x1B : 0;
        same_line(j);
        SEND(j, "\001"); /* a column in plot mode; outside it, a byte with a note */
        EQUAL(j->events, (b != 0x1B) ? 1 : 0);
        expected_line[0] = b == 0x1B ? 0x1B : b == 'e' ? 0 : 1;
        expected_line[the->step[0]] = b == 0x1B ? 1 : 0;
        same_line(j);
    }
}

static void operands(void)
{
    struct job *j = &the_job;
    for (unsigned b = 0; b < 256; b++)
        for (unsigned c = 0; c < 256; c += b == 4 ? 1 : 51) {
            uint8_t job[4] = { 0x1B, 'N', (uint8_t)b, (uint8_t)c };
            open_job(j, the, 1, 8);
            send(j, job, 4);
            if (b == 4 && c == 0)
                NO_EVENT(j);
            else
                ONLY_NOTE(j, CLOCKTOAD_NOTE_INVALID, 0);
            closes(j, CLOCKTOAD_CLEAN, 0);
        }
    for (unsigned b = 1; b < 256; b++) {
        uint8_t job[3] = { 0x1B, 'c', (uint8_t)b };
        open_job(j, the, 1, 8);
        send(j, job, 3);
        ONLY_NOTE(j, CLOCKTOAD_NOTE_INVALID, 0);
        closes(j, CLOCKTOAD_CLEAN, 0);
    }
}

static void striking(void)
{
    struct job *j = &the_job;
    open_66();
    set_glyph(j->m.font, 'A', glyph_a);
    TIMES(j, the->cells[0], "A");
    for (size_t k = 0; k < the->cells[0]; k++)
        put(expected_line, 10 * the->step[0] * k, the->step[0], columns_a, 7);
    same_line(j);
    SEND(j, "\n\033>");
    TIMES(j, the->cells[1], "A");
    SEND(j, "\n\033?\033d\100\033e\r A\r");
    NO_EVENT(j);
    for (size_t k = 0; k < the->cells[0]; k++)
        expect_columns(expected_page, 0, 50 * k, 5, columns_a, 7);
    for (size_t k = 0; k < the->cells[1]; k++)
        expect_columns(expected_page, 12, 30 * k, 3, columns_a, 7);
    expect_columns(expected_page, 24, 50, 5, columns_a, 7);
    blacken(expected_page, 26, 0);
    same_page(j);
    closes(j, CLOCKTOAD_CLEAN, 0);
}

/* Positions from W on are not struck, but zeroed; numbers' bits above wire 1 are no wires. */
static void striking_strange_lines(void)
{
    struct job *j = &the_job;
    for (int pitch = 0; pitch < 2; pitch++) {
        open_66();
        send(j, pitch ? "\033>" : "\033?", 2);
        for (size_t k = 0; k < the->line; k++)
            j->m.line[k] = (uint16_t)random_word();
        expect_columns(expected_page, 0, 0, the->grid[pitch], j->m.line, the->width[pitch]);
        SEND(j, "\n");
        same_page(j);
    }
}

static void features(void)
{
    struct job *j = &the_job;
    const size_t step = the->step[0];
    const unsigned elongated[MODELS] = { 110, 113 }; /* compressed */
    const unsigned most = elongated[the->model], fit = the->cells[1], normal = the->cells[0];
    open_66();
    set_glyph(j->m.font, 'A', glyph_a);
    SEND(j, "\033<A\033aA\033=A\033bA");
    NO_EVENT(j);
    put_cell(expected_line, 0, step, columns_a, ELONGATED);
    put_cell(expected_line, 20 * step, step, columns_a, ELONGATED | UNDERSCORED);
    put_cell(expected_line, 40 * step, step, columns_a, UNDERSCORED);
    put_cell(expected_line, 50 * step, step, columns_a, PLAIN);
    same_line(j);

    open_66();
    TIMES(j, normal - 1, "A");
    SEND(j, "\033<A\033=AA");
    EQUAL(j->events, 2);
    EQUAL(j->event[0].place, normal - 1 + 2);
    EQUAL(j->event[1].place, normal - 1 + 6);
    open_66();
    SEND(j, "\033>\033<");
    TIMES(j, most + 1, " ");
    ONLY_NOTE(j, CLOCKTOAD_NOTE_LINE_FULL, 4 + most);
    open_66();
    SEND(j, "\033>");
    TIMES(j, fit + 1, " ");
    ONLY_NOTE(j, CLOCKTOAD_NOTE_LINE_FULL, 2 + fit);
    SEND(j, "\n");
    TIMES(j, fit + 1, " ");
    last_event(j, 2, CLOCKTOAD_NOTE, CLOCKTOAD_NOTE_LINE_FULL, 2 + (fit + 2) + fit);
}

/* Features last from line to line, each until it is turned off. */
static void lasting_features(void)
{
    static const uint16_t blank[7], full[7] = { 511, 511, 511, 511, 511, 511, 511 };
    struct job *j = &the_job;
    const size_t step = the->step[0];
    open_66();
    memset(j->m.font, 0xFF, STORE);
    SEND(j, "\033N\004\000\033<\033aA\nA\fA\r");
    last_event(j, 1, CLOCKTOAD_FORM_FINISHED, 0, 11);
    SEND(j, "A");
    put_cell(expected_line, 0, step, blank, ELONGATED | UNDERSCORED);
    same_line(j);
    SEND(j, "\033OA");
    put_cell(expected_line, 0, step, blank, ELONGATED | UNDERSCORED);
    put_cell(expected_line, 20 * step, step, full, ELONGATED | UNDERSCORED);
    same_line(j);
}

static void plotting(void)
{
    struct job *j = &the_job;
    for (int pitch = 0; pitch < 2; pitch++) {
        unsigned width = the->columns[pitch];
        open_66();
        send(j, pitch ? "\033>" : "\033?", 2);
        SEND(j, "\033d");
        TIMES(j, width, "\125");
        NO_EVENT(j);
        SEND(j, "\052");
        ONLY_NOTE(j, CLOCKTOAD_NOTE_LINE_FULL, 4 + width);
        SEND(j, "\033\033");
        last_event(j, 2, CLOCKTOAD_NOTE, CLOCKTOAD_NOTE_LINE_FULL, 5 + width);
        SEND(j, "\200");
        last_event(j, 3, CLOCKTOAD_NOTE, CLOCKTOAD_NOTE_INVALID, 7 + width);
        SEND(j, "\033eA");
        last_event(j, 4, CLOCKTOAD_NOTE, CLOCKTOAD_NOTE_INVALID, 10 + width);
        for (size_t k = 0; k < width; k++)
            expected_line[k * the->step[pitch]] = 0125;
        same_line(j);
        SEND(j, "\033d");
        last_event(j, 5, CLOCKTOAD_NOTE, CLOCKTOAD_NOTE_INVALID, 11 + width);
        SEND(j, "\n");
        for (size_t k = 0; k < width; k++)
            for (size_t row = 2; row <= 8; row += 2) /* wires 3, 5, 7 and 9 */
                blacken(expected_page, row, k * (pitch ? 3 : 5));
        same_page(j);
        EQUAL(row_of(j), 7);
    }
}

static void tab_items(void)
{
    struct job *j = &the_job;
    for (unsigned n = 1; n < 256; n++) {
        uint8_t job[5] = { 0x1B, 'F', (uint8_t)n, 0, 0x0B };
        open_66();
        send(j, job, 5);
        if (n > 66)
            ONLY_NOTE(j, CLOCKTOAD_NOTE_TAB_ITEM, 2);
        else if (n == 1) /* none below the current line */
            last_event(j, 1, CLOCKTOAD_FORM_FINISHED, 0, 4);
        else
            NO_EVENT(j);
        EQUAL(row_of(j), n > 66 ? 0 : 12 * (n - 1));
    }
}

static void tabs_and_rows(void)
{
    struct job *j = &the_job;
    open_66();
    SEND(j, "\n\0335\n\n\033F\003\007A");
    EQUAL(j->events, 0);
    closes(j, CLOCKTOAD_COMMAND_UNFINISHED, 5);
    SEND(j, "\0\v");
    EQUAL(row_of(j), 72); /* line 2's tab went at F */
    SEND(j, "\v");
    EQUAL(row_of(j), 768); /* 41 was an item, line 65 */
    SEND(j, "A\0336\v");
    last_event(j, 1, CLOCKTOAD_FORM_FINISHED, 0, 16);
    EQUAL(row_of(j), 24);
    open_66();
    SEND(j, "\n" PLOT_LINE "\n\0335\f\v"); /* row 19, still line 2 */
    EQUAL(row_of(j), 12);
    open_66();
    SEND(j, "\nA\0335\f\v"); /* set within a line, and below cleared */
    EQUAL(row_of(j), 12);
    SEND(j, "A\0336\v");
    EQUAL(j->events, 1);
    EQUAL(row_of(j), 12);
    open_66();
    SEND(j, "\033F\100\101\102\000\033F\002\000\v\v"); /* lines 64 to 66, then 2 alone */
    last_event(j, 1, CLOCKTOAD_FORM_FINISHED, 0, 11);
    EQUAL(row_of(j), 12);
    SEND(j, "\033F\002\100\101\000\033c\000\v");
    EQUAL(j->events, 1);
    EQUAL(row_of(j), 12);
    open_job(j, the, 10, 8);
    SEND(j, "\033F\003\005\000\v");
    EQUAL(row_of(j), 18);
    SEND(j, "\n\v");
    EQUAL(row_of(j), 36);
    SEND(j, "\n");
    EQUAL(row_of(j), 45);
}

/* A download of `count` bytes of payload, cut into pieces, to an address; its checksum off by `error`. */
static void download(struct job *j, unsigned count, unsigned address, const uint8_t *payload, unsigned piece,
                     unsigned error)
{
    uint8_t header[6] = { 0x1B, 'Y', (uint8_t)(count >> 8), (uint8_t)count, (uint8_t)(address >> 8), (uint8_t)address };
    uint8_t sum = 0;
    for (unsigned k = 0; k < count; k++)
        sum = (uint8_t)(sum + payload[k]);
    uint8_t checksum = (uint8_t)(error - sum);
    send(j, header, 6);
    closes(j, CLOCKTOAD_COMMAND_UNFINISHED, j->fed - 6);
    for (unsigned from = 0; from < count; from += piece)
        send(j, payload + from, count - from < piece ? count - from : piece);
    send(j, &checksum, 1);
}

static uint8_t payload[65535];

static void download_headers(void)
{
    static const struct { unsigned count, address, good; } header[] = {
        { 16, 2048, 1 }, { 16, 4080, 1 }, { 2048, 2048, 1 }, { 2032, 2064, 1 }, { 16, 2032, 0 }, { 16, 4096, 0 },
        { 2048, 2064, 0 }, { 2064, 2048, 0 }, { 0, 2048, 0 }, { 0, 4096, 0 }, { 15, 2048, 0 }, { 17, 2048, 0 },
        { 16, 2049, 0 }, { 16, 2056, 0 }, { 1, 0, 0 }, { 16, 65520, 0 }, { 65535, 65535, 0 }, { 65535, 2048, 0 },
        { 4096, 2048, 0 }, { 256, 256, 0 },
    };
    struct job *j = &the_job;
    for (size_t k = 0; k < sizeof payload; k++) /* word w of each glyph is 1 << w, word 0 is 0 */
        payload[k] = k % 16 < 2 || k % 2 == 0 ? 0 : (uint8_t)(1 << k % 16 / 2);
    for (size_t k = 0; k < COUNT_OF(header); k++) {
        unsigned count = header[k].count, staged = count < STORE ? count : STORE, base = header[k].address - 2048;
        open_66();
        download(j, count, header[k].address, payload, UINT16_MAX, 1);
        ONLY_NOTE(j, CLOCKTOAD_NOTE_CHECKSUM, 0);
        CHECK(all_zero(j->m.store, STORE));
        CHECK(memcmp(j->m.staging, payload, staged) == 0 && all_zero(j->m.staging + staged, STORE - staged));
        memset(j->m.staging, 0, STORE);
        download(j, count, header[k].address, payload, 7, 0);
        EQUAL(j->events, header[k].good ? 1 : 2);
        CHECK(memcmp(j->m.staging, payload, staged) == 0 && all_zero(j->m.staging + staged, STORE - staged));
        if (header[k].good)
            CHECK(memcmp(j->m.store + base, payload, count) == 0 && all_zero(j->m.store, base) &&
                  all_zero(j->m.store + base + count, STORE - base - count));
        else {
            last_event(j, 2, CLOCKTOAD_NOTE, CLOCKTOAD_NOTE_INVALID, 7 + count);
            CHECK(all_zero(j->m.store, STORE));
        }
        closes(j, CLOCKTOAD_CLEAN, 0);
    }
}

static void download_glyphs(void)
{
    static const struct { uint16_t word[8]; bool well; } glyph[] = {
        { { 0 }, true }, { { 1 }, false }, { { 0x8000 }, false }, { { 0, 511, 0, 511, 0, 511, 0, 511 }, true },
        { { 0, 512 }, false }, { { 0, 0, 0, 0, 0, 0, 0, 0x8000 }, false }, { { 0, 1, 1 }, false },
        { { 0, 0, 0, 0, 0, 0, 256, 256 }, false }, { { 0, 256, 255, 256, 255, 256, 255, 256 }, true },
        { { 0, 1, 0, 1, 2, 4, 2, 6 }, false }, { { 0, 16, 0, 16, 0, 16, 0, 16 }, true },
    };
    struct job *j = &the_job;
    for (size_t k = 0; k < COUNT_OF(glyph); k++)
        for (unsigned at = 0; at < 128; at += 127) {
            uint8_t set[STORE] = { 0 };
            set_glyph(set, at, glyph[k].word);
            open_66();
            download(j, STORE, 2048, set, 1000, 0);
            if (glyph[k].well)
                NO_EVENT(j);
            else
                ONLY_NOTE(j, CLOCKTOAD_NOTE_GLYPH, 0);
            CHECK(glyph[k].well ? memcmp(j->m.store, set, STORE) == 0 : all_zero(j->m.store, STORE));
            open_66();
            download(j, STORE, 2064, set, STORE, 0);
            ONLY_NOTE(j, CLOCKTOAD_NOTE_INVALID, 0);
        }
}

static void downloaded_glyphs(void)
{
    static const uint16_t first[8] = { 0, 1, 2, 4, 8, 16, 32, 64 }, second[8] = { 0, 256, 0, 256, 0, 256, 0, 256 };
    struct job *j = &the_job;
    const size_t step = the->step[0];
    uint8_t set[STORE] = { 0 };
    open_66();
    set_glyph(j->m.font, 'A', glyph_a);
    set_glyph(set, 0, first);
    download(j, 16, 2048 + 16 * 'A', set, 16, 0);
    SEND(j, "A\033N\004\000A");
    set_glyph(set, 0, second);
    download(j, 16, 2048 + 16 * 'A', set, 16, 0);
    SEND(j, "A\033OA");
    NO_EVENT(j);
    put(expected_line, 0, step, columns_a, 7);
    put(expected_line, 10 * step, step, first + 1, 7);
    put(expected_line, 20 * step, step, second + 1, 7);
    put(expected_line, 30 * step, step, columns_a, 7);
    same_line(j);
    SEND(j, "\033N\004\000\n\033<\033a\0335A\033c\000");
    NO_EVENT(j);
    same_line(j);
    CHECK(all_zero(j->m.store, STORE) && memcmp(j->m.staging, set, 16) == 0);
    closes(j, CLOCKTOAD_CLEAN, 0);
    SEND(j, "A");
    put(expected_line, 0, step, columns_a, 7);
    same_line(j);
    SEND(j, "\v");
    EQUAL(row_of(j), 12);
    NO_EVENT(j);
}

static void resets(void)
{
    struct job *j = &the_job;
    const unsigned fit = the->cells[0];
    open_66();
    SEND(j, PLOT_LINE "\033c\000\n");
    EQUAL(row_of(j), 12); /* no plot line any more */
    SEND(j, "\033>\033c\000");
    TIMES(j, fit + 1, "A");
    ONLY_NOTE(j, CLOCKTOAD_NOTE_LINE_FULL, 8 + 5 + fit);
    SEND(j, "\033c\000\033>");
    TIMES(j, the->cells[1], "A");
    EQUAL(j->events, 1);
}

/* Lines in one piece: what is sent before the characters or columns, and how many of them then fit. */
static const struct { unsigned on; const char *before; size_t fit; } long_lines[] = {
    { ON_LP2, "", 132 }, { ON_LP2, "\033>", 220 }, { ON_LP2, "\033<", 66 }, { ON_LP2, "\033>\033<\033a", 110 },
    { ON_LP2, "AAA\033<", 64 }, { ON_LP2, "\033d", 1320 }, { ON_LP2, "\033>\033d", 2200 },
    { ON_6215, "", 136 }, { ON_6215, "\033>", 226 }, { ON_6215, "\033<", 68 }, { ON_6215, "\033[2w\033a", 113 },
    { ON_6215, "AAAAA\033>", 218 }, { ON_6215, "\033>AAA\033?", 134 }, { ON_6215, "\033[0wA\033[6w", 223 },
    { ON_6215, "\033d", 1360 }, { ON_6215, "\033[6w\033d", 2266 }, { ON_6215, "\033[2w\033d\001\001", 2264 },
};

enum { PAST = 3 }; /* so many more than fit */

static void send_in_pieces(struct job *j, const uint8_t *bytes, size_t length, size_t piece)
{
    open_job(j, the, 2, 8);
    for (size_t k = 0; k < STORE; k++)
        j->m.font[k] = (uint8_t)(k * k + 5 * k);
    for (size_t from = 0; from < length; from += piece)
        send(j, bytes + from, length - from < piece ? length - from : piece);
}

/* A long piece gives what its bytes give one by one, or some at a time. */
static void long_pieces(void)
{
    static const size_t piece[] = { 1, 2, 7, 64, 1000 };
    struct job *j = &the_job, *other = &other_job;
    for (size_t k = 0; k < COUNT_OF(long_lines); k++) {
        uint8_t bytes[2400];
        size_t fit = long_lines[k].fit, first = strlen(long_lines[k].before), length = first + fit + PAST;
        if (!is_on(long_lines[k].on))
            continue;
        memcpy(bytes, long_lines[k].before, first);
        for (size_t n = first; n < length; n++)
            bytes[n] = (uint8_t)(0x20 + n * 11 % 0x5F);
        send_in_pieces(j, bytes, length, length);
        EQUAL(j->events, PAST);
        for (size_t n = 0; n < PAST; n++) {
            EQUAL(j->event[n].number, CLOCKTOAD_NOTE_LINE_FULL);
            EQUAL(j->event[n].place, first + fit + n);
        }
        CHECK(!all_zero(j->m.line, j->n.line * sizeof(uint16_t)));
        for (size_t p = 0; p < COUNT_OF(piece); p++) {
            send_in_pieces(other, bytes, length, piece[p]);
            same_job(j, other);
            CHECK(j->events == other->events && memcmp(j->event, other->event, PAST * sizeof *j->event) == 0);
        }
    }
}

/* Two characters, or plotted columns, from a position on; each is noted where it does not fit. */
static void entered_at(size_t position, int pitch, bool plotted, unsigned elongation)
{
    struct job *j = &the_job;
    const size_t step = the->step[pitch], room = (plotted ? 1 : elongation ? 20 : 10) * step;
    size_t notes = 0;
    open_job(j, the, 1, 8);
    set_glyph(j->m.font, 'A', glyph_a);
    send(j, pitch ? "\033>" : "\033?", 2);
    send(j, elongation ? "\033<" : "\033=", 2);
    send(j, plotted ? "\033d" : " ", plotted ? 2 : 1);
    forge(j, POSITION, position);
    for (int k = 0; k < 2; k++) {
        SEND(j, "A");
        if (position + room > the->width[pitch]) {
            last_event(j, ++notes, CLOCKTOAD_NOTE, CLOCKTOAD_NOTE_LINE_FULL, j->fed - 1);
            continue;
        }
        if (plotted)
            expected_line[position] = 'A';
        else
            put_cell(expected_line, position, step, columns_a, elongation);
        position += room;
    }
    EQUAL(j->events, notes);
    same_line(j);
}

/* Every position of a line that is not fresh is sound: also those that no job comes to. */
static void forged_positions(void)
{
    if (word[POSITION] < 0)
        return;
    for (int pitch = 0; pitch < 2; pitch++)
        for (size_t at = 0; at <= 2 * 101; at++) {
            size_t position = at <= 101 ? at : the->width[pitch] - (2 * 101 - at);
            entered_at(position, pitch, false, PLAIN);
            entered_at(position, pitch, false, ELONGATED);
            entered_at(position, pitch, true, PLAIN);
        }
}

/* On an LP2, ESC [ is no command: its two bytes are taken, and the others print. */
static void brackets_of_lp2(void)
{
    static const struct text sent[] = {
        TEXT("\033[4w"), TEXT("\033[0w"), TEXT("\033[2z"), TEXT("\033[1z"), TEXT("\033[;5r"), TEXT("\033[9;1;9r"),
    };
    struct job *j = &the_job;
    for (size_t k = 0; k < COUNT_OF(sent); k++) {
        open_66();
        for (unsigned code = 0; code < 128; code++)
            set_glyph(j->m.font, code, glyph_a);
        EQUAL(feed(j, sent[k].bytes, sent[k].length), CLOCKTOAD_NOTE);
        reported(j, 2, CLOCKTOAD_NOTE_UNKNOWN_COMMAND, 0);
        closes(j, CLOCKTOAD_CLEAN, 0);
        send(j, sent[k].bytes + 2, sent[k].length - 2);
        NO_EVENT(j);
        for (size_t cell = 0; cell + 2 < sent[k].length; cell++)
            put(expected_line, 10 * cell, 1, columns_a, 7);
        same_line(j);
        EQUAL(page_due(j), 653400);
        EQUAL(row_of(j), 0);
    }
}

/* The print styles of ESC [ v w. */
static const struct style {
    const char *name; /* the command */
    const char *pair; /* the two commands that do the same */
    size_t step, cell;
    unsigned elongation;
} styles[] = {
    { "\033[4w", "\033?\033=", 5, 50, PLAIN },
    { "\033[6w", "\033>\033=", 3, 30, PLAIN },
    { "\033[0w", "\033?\033<", 5, 100, ELONGATED },
    { "\033[2w", "\033>\033<", 3, 60, ELONGATED },
};

enum { STYLES = COUNT_OF(styles) };

/* Each style after each, on a fresh line, in a line and on a plot line. */
static void print_styles(void)
{
    static const char *const lines[] = { "", "A", PLOT_LINE };
    struct job *j = &the_job, *other = &other_job;
    for (size_t l = 0; l < COUNT_OF(lines); l++)
        for (size_t from = 0; from < STYLES; from++)
            for (size_t to = 0; to < STYLES; to++) {
                open_job(j, the, 1, 8);
                set_glyph(j->m.font, 'A', glyph_a);
                send(j, styles[from].pair, 4);
                send(j, lines[l], strlen(lines[l]));
                copy_job(other, j);
                send(j, styles[to].name, 4);
                send(other, styles[to].pair, 4);
                same_job(j, other);
                NO_EVENT(j);
                if (lines[l][0] == '\033')
                    continue;
                size_t position = *lines[l] ? styles[from].cell : 0;
                SEND(j, "A");
                if (*lines[l])
                    put_cell(expected_line, 0, styles[from].step, columns_a, styles[from].elongation);
                put_cell(expected_line, position, styles[to].step, columns_a, styles[to].elongation);
                same_line(j);
            }
}

/* A line of so many characters in each style, as the styles stand above, and where it ends. */
static const struct { unsigned count[STYLES]; size_t end; } ends[] = {
    { { 136, 0, 0, 0 }, 6800 }, { { 135, 0, 0, 0 }, 6750 }, { { 0, 226, 0, 0 }, 6780 }, { { 0, 225, 0, 0 }, 6750 },
    { { 0, 0, 68, 0 }, 6800 }, { { 0, 0, 67, 0 }, 6700 }, { { 0, 0, 0, 113 }, 6780 }, { { 0, 0, 0, 112 }, 6720 },
    { { 133, 5, 0, 0 }, 6800 }, { { 134, 0, 0, 0 }, 6700 }, { { 134, 1, 0, 0 }, 6730 }, { { 134, 2, 0, 0 }, 6760 },
    { { 134, 3, 0, 0 }, 6790 }, { { 1, 222, 0, 0 }, 6710 }, { { 1, 223, 0, 0 }, 6740 }, { { 1, 224, 0, 0 }, 6770 },
    { { 2, 222, 0, 0 }, 6760 }, { { 1, 1, 66, 2 }, 6800 }, { { 0, 1, 67, 1 }, 6790 }, { { 2, 0, 0, 111 }, 6760 },
    { { 1, 0, 0, 112 }, 6770 }, { { 0, 0, 1, 111 }, 6760 }, { { 3, 221, 0, 0 }, 6780 }, { { 2, 223, 0, 0 }, 6790 },
};

/* At the end of a line each style's cell is entered where it fits, and else noted. */
static void ends_of_lines(void)
{
    struct job *j = &the_job, *other = &other_job;
    for (size_t k = 0; k < COUNT_OF(ends); k++) {
        open_job(j, the, 1, 8);
        for (size_t s = 0; s < STYLES; s++) {
            send(j, styles[s].name, 4);
            TIMES(j, ends[k].count[s], " ");
        }
        NO_EVENT(j);
        set_glyph(j->m.font, 'A', glyph_a);
        for (size_t s = 0; s < STYLES; s++) {
            char piece[10];
            sprintf(piece, "%sA\a\a\a\a", styles[s].name);
            copy_job(other, j);
            send(other, piece, 9);
            if (ends[k].end + styles[s].cell > 6800)
                ONLY_NOTE(other, CLOCKTOAD_NOTE_LINE_FULL, j->fed + 4);
            else {
                NO_EVENT(other);
                put_cell(expected_line, ends[k].end, styles[s].step, columns_a, styles[s].elongation);
            }
            same_line(other);
        }
    }
}

static const uint16_t glyph_b[8] = { 0, 0x111, 0x022, 0x111, 0x044, 0x111, 0x088, 0x111 };

/* Characters of a mixed line, in turn A and B: what is sent before each, and where and how it then stands. */
static const struct { const char *sent; size_t position, step; unsigned style; } mixed[] = {
    { "", 0, 5, PLAIN }, { "\033[6w", 50, 3, PLAIN }, { "\033[0w", 80, 5, ELONGATED }, { "\033[2w", 180, 3, ELONGATED },
    { "\033a", 240, 3, ELONGATED | UNDERSCORED }, { "\033=", 300, 3, UNDERSCORED }, { "\033?", 330, 5, UNDERSCORED },
    { "\033[0w", 380, 5, ELONGATED | UNDERSCORED }, { "\033>", 480, 3, ELONGATED | UNDERSCORED },
    { "\033[4w\033b", 540, 5, PLAIN }, { "\033>", 590, 3, PLAIN }, { "", 620, 3, PLAIN }, { "\033?", 650, 5, PLAIN },
};

static void striking_mixed_lines(void)
{
    struct job *j = &the_job;
    open_job(j, the, 3, 6);
    set_glyph(j->m.font, 'A', glyph_a);
    set_glyph(j->m.font, 'B', glyph_b);
    SEND(j, "\n");
    for (size_t k = 0; k < COUNT_OF(mixed); k++) {
        const uint16_t *wires = k % 2 ? glyph_b + 1 : columns_a;
        send(j, mixed[k].sent, strlen(mixed[k].sent));
        send(j, k % 2 ? "B" : "A", 1);
        put_cell(expected_line, mixed[k].position, mixed[k].step, wires, mixed[k].style);
        expect_cell(expected_page, 12, mixed[k].position, mixed[k].step, wires, mixed[k].style);
    }
    same_line(j);
    SEND(j, "\r");
    NO_EVENT(j);
    same_page(j);
}

/* Full lines in each style, underscored; and plots in each style, which know the pitch alone. */
static void striking_styles(void)
{
    struct job *j = &the_job;
    for (size_t s = 0; s < STYLES; s++) {
        unsigned cells = (unsigned)(6800 / styles[s].cell), columns = styles[s].step == 5 ? 1360 : 2266;
        open_job(j, the, 3, 6);
        set_glyph(j->m.font, 'A', glyph_a);
        send(j, styles[s].name, 4);
        SEND(j, "\033a");
        TIMES(j, cells, "A");
        SEND(j, "\n\033d");
        for (unsigned k = 0; k < columns; k++) {
            uint8_t column[2] = { (uint8_t)(k % 128), 0x1B };
            uint16_t wires = column[0];
            send(j, column, column[0] == 0x1B ? 2 : 1);
            expect_columns(expected_page, 12, k * styles[s].step, 1, &wires, 1);
        }
        SEND(j, "\033e\r");
        NO_EVENT(j);
        for (unsigned k = 0; k < cells; k++)
            expect_cell(expected_page, 0, k * styles[s].cell, styles[s].step, columns_a,
                        styles[s].elongation | UNDERSCORED);
        same_page(j);
    }
}

/* What comes of a command: nothing is told, or a form is finished, or a note of that number. */
enum { QUIET = 0, FINISHES = 1 };

static uint8_t bells[70000];

/* A command with a note leaves all as so many bytes that do nothing would. */
static void obeys(struct job *j, const void *bytes, size_t length, unsigned outcome)
{
    struct job *idle = &other_job;
    size_t seen = j->events;
    uint64_t place = j->fed;
    copy_job(idle, j);
    send(j, bytes, length);
    if (outcome == QUIET)
        EQUAL(j->events, seen);
    else if (outcome == FINISHES)
        last_event(j, seen + 1, CLOCKTOAD_FORM_FINISHED, 0, j->fed - 1);
    else {
        last_event(j, seen + 1, CLOCKTOAD_NOTE, outcome, place);
        CHECK(length <= sizeof bells);
        memset(bells, 0x07, length);
        send(idle, bells, length);
        same_job(j, idle);
    }
}

/* Each byte after what is sent; other last bytes than these three give note 42. */
static const struct { struct text sent; unsigned w, r, z; } brackets[] = {
    { TEXT("\033["), 46, FINISHES, 46 }, { TEXT("\033[1"), 46, FINISHES, FINISHES },
    { TEXT("\033[4"), QUIET, FINISHES, 46 }, { TEXT("\033[0"), QUIET, 43, 46 },
    { TEXT("\033[02"), QUIET, FINISHES, FINISHES }, { TEXT("\033[;"), 46, FINISHES, 46 },
    { TEXT("\033[;;"), 46, FINISHES, 46 }, { TEXT("\033[;;;"), 46, 43, 46 }, { TEXT("\033[4;"), 46, FINISHES, 46 },
    { TEXT("\033[1;1;1"), 46, FINISHES, 46 }, { TEXT("\033[1;1;1;1"), 46, 43, 46 },
    { TEXT("\033[9999999"), 46, 43, 46 },
};

static void every_bracket_byte(void)
{
    struct job *j = &the_job;
    for (size_t k = 0; k < COUNT_OF(brackets); k++)
        for (unsigned b = 0; b < 256; b++)
            for (int started = 0; started < 2; started++) {
                char job[16];
                size_t length = brackets[k].sent.length;
                bool goes_on = (b >= '0' && b <= '9') || b == ';';
                unsigned outcome = goes_on ? QUIET : b == 'w' ? brackets[k].w : b == 'r' ? brackets[k].r
                                 : b == 'z' ? brackets[k].z : 42;
                memcpy(job, brackets[k].sent.bytes, length);
                job[length] = (char)b;
                open_job(j, the, 1, 8);
                send(j, "A", (size_t)started);
                obeys(j, job, length + 1, started && outcome == FINISHES ? 43 : outcome);
                if (goes_on)
                    closes(j, CLOCKTOAD_COMMAND_UNFINISHED, (uint64_t)started);
                else
                    closes(j, started ? CLOCKTOAD_LINE_UNPRINTED : CLOCKTOAD_CLEAN, 0);
            }
}

/* On a form of 10 lines at 6 an inch, in place. */
static const struct { const char *sent; unsigned outcome; } values[] = {
    /* print styles */
    { "4w", QUIET }, { "04w", QUIET }, { "00w", QUIET }, { "000000000000000000000000000000000000000000006w", QUIET },
    { "w", 46 }, { "1w", 46 }, { "3w", 46 }, { "5w", 46 }, { "7w", 46 }, { "8w", 46 }, { "9w", 46 }, { "10w", 46 },
    { "12w", 46 }, { "40w", 46 }, { "44w", 46 }, { "60w", 46 }, { "4;w", 46 }, { ";4w", 46 }, { ";w", 46 },
    { "4;4w", 46 }, { ";;;4w", 46 }, { "4;;;w", 46 }, { "0;0;0w", 46 },
    /* spacings */
    { "1z", FINISHES }, { "2z", FINISHES }, { "01z", FINISHES }, { "0000000000000000000000000000000002z", FINISHES },
    { "z", 46 }, { "0z", 46 }, { "00z", 46 }, { "3z", 46 }, { "4z", 46 }, { "6z", 46 }, { "8z", 46 }, { "10z", 46 },
    { "11z", 46 }, { "12z", 46 }, { "20z", 46 }, { "1;z", 46 }, { ";1z", 46 }, { ";z", 46 }, { "1;1z", 46 },
    { "2;;;z", 46 },
    /* forms */
    { "r", FINISHES }, { ";r", FINISHES }, { ";;r", FINISHES }, { "10r", FINISHES }, { "10;1;10r", FINISHES },
    { "0010;0001;0000000000000000000000000000000000010r", FINISHES }, { "112r", FINISHES },
    { "112;112;112r", FINISHES }, { "1;1;1r", FINISHES }, { "10;10r", FINISHES }, { ";10r", FINISHES },
    { ";;1r", FINISHES }, { "99;;99r", FINISHES }, { "0r", 43 }, { "00r", 43 }, { ";0r", 43 }, { ";;0r", 43 },
    { "10;0;10r", 43 }, { "10;1;0r", 43 }, { "0;0;0r", 43 }, { "0;;r", 43 }, { ";00;r", 43 }, { "9r", 43 },
    { "1r", 43 }, { "113r", 43 }, { "113;1;10r", 43 }, { "113;1;113r", 43 }, { "113;113;113r", 43 }, { "120r", 43 },
    { ";11r", 43 }, { ";;11r", 43 }, { ";2;1r", 43 }, { "12;13r", 43 }, { "12;11r", 43 }, { "5;6;5r", 43 },
    { "5;1;6r", 43 }, { ";11;11r", 43 }, { "112;1;113r", 43 }, { "112;113;113r", 43 }, { ";;;r", 43 },
    { "10;1;10;r", 43 }, { "10;1;10;10r", 43 }, { ";;;;r", 43 }, { ";;;10r", 43 },
    /* no command */
    { "0x", 42 }, { "4W", 42 }, { "1Z", 42 }, { "10R", 42 }, { "4u", 42 }, { "4v", 42 }, { "4m", 42 },
    { ";;;;;;x", 42 }, { "99999999999999999999x", 42 }, { "113;0;7;8q", 42 }, { "3;y", 42 }, { "4\033", 42 },
    { "1\n", 42 }, { "1\f", 42 }, { "1\v", 42 }, { "1\r", 42 }, { "4 ", 42 }, { "2:", 42 }, { "2/", 42 }, { "-", 42 },
    { "+", 42 },
    /* past 8, 16, 32, 64 and 128 bits, and past each digit */
    { "256w", 46 }, { "260w", 46 }, { "65536w", 46 }, { "65540w", 46 }, { "4294967296w", 46 }, { "4294967300w", 46 },
    { "18446744073709551616w", 46 }, { "18446744073709551620w", 46 },
    { "340282366920938463463374607431768211460w", 46 }, { "104w", 46 }, { "1004w", 46 }, { "9999w", 46 },
    { "10000w", 46 }, { "10004w", 46 }, { "99994w", 46 }, { "100004w", 46 }, { "257z", 46 }, { "258z", 46 },
    { "65537z", 46 }, { "65538z", 46 }, { "4294967297z", 46 }, { "4294967298z", 46 }, { "18446744073709551617z", 46 },
    { "18446744073709551618z", 46 }, { "340282366920938463463374607431768211457z", 46 }, { "101z", 46 },
    { "1001z", 46 }, { "10001z", 46 }, { "100001z", 46 }, { "266r", 43 }, { "65546r", 43 }, { "4294967306r", 43 },
    { "18446744073709551626r", 43 }, { "340282366920938463463374607431768211466r", 43 }, { "1010r", 43 },
    { "9999r", 43 }, { "10010r", 43 }, { ";257r", 43 }, { ";65537r", 43 }, { ";4294967297r", 43 },
    { ";18446744073709551617r", 43 }, { ";10001r", 43 }, { ";340282366920938463463374607431768211457r", 43 },
    { ";256r", 43 }, { ";65536r", 43 }, { ";4294967296r", 43 }, { ";;266r", 43 }, { ";;65546r", 43 },
    { ";;4294967306r", 43 }, { ";;18446744073709551626r", 43 }, { ";;10010r", 43 },
    { ";;340282366920938463463374607431768211466r", 43 },
};

static void bracket_values(void)
{
    struct job *j = &the_job;
    for (size_t k = 0; k < COUNT_OF(values); k++) {
        char job[64] = "\033[";
        strcat(job, values[k].sent);
        open_job(j, the, 10, 6);
        obeys(j, job, strlen(job), values[k].outcome);
        closes(j, CLOCKTOAD_CLEAN, 0);
    }
}

/* ESC [, one byte, another one so often, and a last one or two. */
static void long_bracket(char first, char often, size_t times, const char *last, unsigned outcome)
{
    static char job[70000];
    size_t length = 0;
    job[length++] = 0x1B;
    job[length++] = '[';
    if (first)
        job[length++] = first;
    memset(job + length, often, times);
    length += times;
    memcpy(job + length, last, strlen(last));
    length += strlen(last);
    open_job(&the_job, the, 10, 6);
    obeys(&the_job, job, length, outcome);
    closes(&the_job, CLOCKTOAD_CLEAN, 0);
}

static void long_brackets(void)
{
    static const size_t times[] = {
        0, 1, 2, 3, 4, 5, 6, 7, 8, 9, 10, 15, 16, 17, 18, 19, 20, 253, 254, 255, 256, 257, 258, 259, 260, 511, 512, 513,
        514, 4096, 32768, 65533, 65534, 65535, 65536, 65537, 65538, 65539,
    };
    for (size_t k = 0; k < COUNT_OF(times); k++) {
        size_t n = times[k];
        long_bracket(0, ';', n, "r", n <= 2 ? FINISHES : 43);
        long_bracket(0, ';', n, "5r", n == 1 || n == 2 ? FINISHES : 43);
        long_bracket('4', ';', n, "w", n == 0 ? QUIET : 46);
        long_bracket(0, ';', n, "4w", n == 0 ? QUIET : 46);
        long_bracket('2', ';', n, "z", n == 0 ? FINISHES : 46);
        long_bracket(0, ';', n, "x", 42);
        long_bracket(0, '0', n, "6w", QUIET);
        long_bracket(0, '0', n, "1z", FINISHES);
        long_bracket(0, '0', n, "12r", FINISHES);
        long_bracket(';', '0', n, "r", n == 0 ? FINISHES : 43);
        long_bracket('1', '0', n, "4w", 46);
        long_bracket('1', '0', n, "1z", 46);
        long_bracket('1', '0', n, "8r", n == 0 || n == 1 ? FINISHES : 43);
        long_bracket('9', '9', n, "w", 46);
        long_bracket(0, '9', n, "x", 42);
    }
}

/* What is sent to a form of 10 lines at 6 an inch, and whether form and spacing can then be set. */
static const struct { struct text sent; bool in; } sites[] = {
    { TEXT(""), true }, { TEXT("A"), false }, { TEXT(" "), false }, { TEXT("A\r"), true }, { TEXT("\n"), false },
    { TEXT("\n\r"), false }, { TEXT("\f"), true }, { TEXT("A\n\f"), true }, { TEXT("\v"), true }, { TEXT("A\v"), true },
    { TEXT("\n\n\n\n\n\n\n\n\n\n"), true }, { TEXT(PLOT_LINE), false }, { TEXT(PLOT_LINE "\r"), true },
    { TEXT(PLOT_LINE "\n"), false }, { TEXT("\033<\033a\033>"), true }, { TEXT("\0335"), true },
    { TEXT("\033F\001\003\000\v"), false }, { TEXT("\033F\001\003\000\v\v"), true },
    { TEXT("\033F\003\000\v\v"), false }, { TEXT("A\033c\000"), true }, { TEXT(PLOT_LINE "\033c\000"), true },
    { TEXT("\n\033c\000"), false }, { TEXT("\033[;3r"), true }, { TEXT("\033[;3rA"), false },
    { TEXT("\033[;3rA\r"), true }, { TEXT("\033[;3r\n"), false }, { TEXT("\033[;3r\n\f"), true },
    { TEXT("\033[;3r" PLOT_LINE "\n"), false }, { TEXT("\033[;3r\033c\000"), true }, { TEXT("\033[;3;3r\n"), true },
    { TEXT("\033[;3r\033F\003\005\000\v\v"), true }, { TEXT("\033[2z"), true }, { TEXT("\033[2z\n"), false },
    { TEXT("\200"), true }, { TEXT("\033[3w"), true },
};

static const struct { struct text sent; unsigned in, out; } commands[] = {
    { TEXT("\033[r"), FINISHES, 43 }, { TEXT("\033[12;2;11r"), FINISHES, 43 }, { TEXT("\033[;;4r"), FINISHES, 43 },
    { TEXT("\033[1z"), FINISHES, 43 }, { TEXT("\033[2z"), FINISHES, 43 }, { TEXT("\033[3z"), 46, 46 },
    { TEXT("\033[z"), 46, 46 }, { TEXT("\033[1;z"), 46, 46 }, { TEXT("\033[113r"), 43, 43 },
    { TEXT("\033[;;;r"), 43, 43 }, { TEXT("\033[1y"), 42, 42 }, { TEXT("\033[0w"), QUIET, QUIET },
    { TEXT("\033[3w"), 46, 46 },
};

static void in_and_out_of_place(void)
{
    struct job *j = &the_job;
    for (size_t s = 0; s < COUNT_OF(sites); s++)
        for (size_t c = 0; c < COUNT_OF(commands); c++) {
            open_job(j, the, 10, 6);
            send_text(j, sites[s].sent);
            obeys(j, commands[c].sent.bytes, commands[c].sent.length, sites[s].in ? commands[c].in : commands[c].out);
        }
}

#define FEATURES "\033<\033a\033>\033N\004\000"

/* On 10 lines at 6 an inch with tabs 2, 4 and 8: the form and row that a command leaves, and the list of tabs left. */
static const struct { struct text sent; uint64_t lines, spacing, top, bottom, row; struct text list; } changes[] = {
    { TEXT("\033[6;1;6r"), 6, 6, 1, 6, 0, TEXT("\033F\002\004\000") },
    { TEXT("\033[7;;7r"), 7, 6, 1, 7, 0, TEXT("\033F\002\004\000") },
    { TEXT("\033[8;;8r"), 8, 6, 1, 8, 0, TEXT("\033F\002\004\010\000") },
    { TEXT("\033[1;1;1r"), 1, 6, 1, 1, 0, TEXT("\033F\000") },
    { TEXT("\033[12;;12r"), 12, 6, 1, 12, 0, TEXT("\033F\002\004\010\000") },
    { TEXT("\033[112;1;112r"), 112, 6, 1, 112, 0, TEXT("\033F\002\004\010\000") },
    { TEXT("\033[r"), 10, 6, 1, 10, 0, TEXT("\033F\002\004\010\000") },
    { TEXT("\033[1z"), 10, 6, 1, 10, 0, TEXT("\033F\002\004\010\000") },
    { TEXT("\033[2z"), 10, 8, 1, 10, 0, TEXT("\033F\002\004\010\000") },
    { TEXT("\033[;3r"), 10, 6, 3, 10, 24, TEXT("\033F\002\004\010\000") },
    { TEXT("\033[;;4r"), 10, 6, 1, 4, 0, TEXT("\033F\002\004\010\000") },
    { TEXT("\033[;10;10r"), 10, 6, 10, 10, 108, TEXT("\033F\002\004\010\000") },
    { TEXT("\033[7;5;6r"), 7, 6, 5, 6, 48, TEXT("\033F\002\004\000") },
};

/* The state is that of a job opened on the new form, but for margins and row; nothing else is written, nor the page. */
static void what_a_form_change_leaves(void)
{
    struct job *j = &the_job, *other = &other_job;
    for (size_t k = 0; k < COUNT_OF(changes); k++) {
        size_t length = changes[k].sent.length, due = changes[k].lines * rows_of(changes[k].spacing) * 850;
        char piece[32];
        memcpy(piece, changes[k].sent.bytes, length);
        memcpy(piece + length, "A\n", 2);
        open_job(j, the, 10, 6);
        SEND(j, FEATURES "\033F\002\004\010\000");
        make_strange(j);
        remember(j);
        EQUAL(feed(j, piece, length + 2), CLOCKTOAD_FORM_FINISHED);
        reported(j, length, 0, 0);
        memcpy(before.state, j->m.state, WORDS * sizeof(uint64_t));
        memcpy(before.report, j->m.report, REPORT * sizeof(uint64_t));
        unchanged(j);
        closes(j, CLOCKTOAD_CLEAN, 0);
        EQUAL(page_due(j), due);

        open_job(other, the, changes[k].lines, changes[k].spacing);
        SEND(other, FEATURES);
        send_text(other, changes[k].list);
        TIMES(other, (unsigned)(6 + length - changes[k].list.length), "\a");
        NO_EVENT(other);
        forge(other, TOP, changes[k].top);
        forge(other, BOTTOM, changes[k].bottom);
        forge(other, ROW, changes[k].row);
        CHECK(memcmp(j->m.state, other->m.state, WORDS * sizeof(uint64_t)) == 0);

        if (due != j->n.page)
            refuse_feed(j, j->n, CLOCKTOAD_BAD_PAGE);
        j->n.page = due;
        EQUAL(feed(j, "", 0), CLOCKTOAD_USED_UP);
        reported(j, 0, 0, 0);
    }
}

/* A copy of the job, at the top of its form, goes through a form of these lines, rows a line and margins. */
static void form_is(const struct job *j, size_t lines, size_t rows, size_t top, size_t bottom)
{
    static struct job copy;
    const size_t first = (top - 1) * rows, room = (bottom - top + 1) * rows;
    uint8_t list[5] = { 0x1B, 'F', (uint8_t)lines, (uint8_t)(lines + 1), 0 };
    EQUAL(page_due(j), lines * rows * 850);
    copy_job(&copy, j);
    copy.events = 0;
    EQUAL(row_of(&copy), first);
    TIMES(&copy, (unsigned)(bottom - top), "\n");
    NO_EVENT(&copy);
    EQUAL(row_of(&copy), (bottom - 1) * rows);
    SEND(&copy, "\n");
    last_event(&copy, 1, CLOCKTOAD_FORM_FINISHED, 0, copy.fed - 1);
    EQUAL(row_of(&copy), first);
    EQUAL(copy.n.page, lines * rows * 850);
    TIMES(&copy, (unsigned)((room - 9) / 7), PLOT_LINE "\n");
    EQUAL(copy.events, 1);
    EQUAL(row_of(&copy), first + (room - 9) / 7 * 7);
    SEND(&copy, PLOT_LINE "\n");
    last_event(&copy, 2, CLOCKTOAD_FORM_FINISHED, 0, copy.fed - 1);
    EQUAL(row_of(&copy), first);
    send(&copy, PLOT_LINE "\n", room >= 16 ? 5 : 0);
    SEND(&copy, "A\f");
    last_event(&copy, 3, CLOCKTOAD_FORM_FINISHED, 0, copy.fed - 1);
    EQUAL(row_of(&copy), first);
    send(&copy, list, sizeof list);
    last_event(&copy, 4, CLOCKTOAD_NOTE, CLOCKTOAD_NOTE_TAB_ITEM, copy.fed - 2);
}

/* What is sent to a form of 10 lines at 6 an inch, and the form that it leaves. */
static const struct { struct text sent; size_t lines, rows, top, bottom; } settings[] = {
    { TEXT(""), 10, 12, 1, 10 }, { TEXT("\033[r"), 10, 12, 1, 10 }, { TEXT("\033[12r"), 12, 12, 1, 10 },
    { TEXT("\033[;3r"), 10, 12, 3, 10 }, { TEXT("\033[;;4r"), 10, 12, 1, 4 }, { TEXT("\033[;4;4r"), 10, 12, 4, 4 },
    { TEXT("\033[12;2;11r"), 12, 12, 2, 11 }, { TEXT("\033[12;;12r"), 12, 12, 1, 12 },
    { TEXT("\033[;10r"), 10, 12, 10, 10 }, { TEXT("\033[112;112;112r"), 112, 12, 112, 112 },
    { TEXT("\033[112;1;112r"), 112, 12, 1, 112 }, { TEXT("\033[112r"), 112, 12, 1, 10 },
    { TEXT("\033[1;1;1r"), 1, 12, 1, 1 }, { TEXT("\033[1z"), 10, 12, 1, 10 }, { TEXT("\033[2z"), 10, 9, 1, 10 },
    { TEXT("\033[2z\033[1z"), 10, 12, 1, 10 }, { TEXT("\033[;3r\033[2z"), 10, 9, 3, 10 },
    { TEXT("\033[2z\033[;3r"), 10, 9, 3, 10 }, { TEXT("\033[2z\033[112;111;112r"), 112, 9, 111, 112 },
    { TEXT("\033[1;1;1r\033[2z"), 1, 9, 1, 1 }, { TEXT("\033[;;4r\033[9r"), 9, 12, 1, 4 },
    { TEXT("\033[;10;10r\033[;1r"), 10, 12, 1, 10 }, { TEXT("\033[;3;8r\033[7r"), 10, 12, 3, 8 },
    { TEXT("\033[;3;8r\033[8r"), 8, 12, 3, 8 }, { TEXT("\033[20;5r\033[;;15r\033[2z\033[1z\033[2z"), 20, 9, 5, 15 },
    { TEXT("\033[20;5;15r\033[;;r\033[;;;r\033[3z\033[x"), 20, 12, 5, 15 }, { TEXT("\033[66;4;63r"), 66, 12, 4, 63 },
    /* a reset and a form feed keep it */
    { TEXT("\033[12;3;9r\033[2z\n\nA\033>\033<\033c\000\f"), 12, 9, 3, 9 },
    { TEXT("\033[12;3;9r\033c\000"), 12, 12, 3, 9 }, { TEXT("\033[2z\033c\000\n\f"), 10, 9, 1, 10 },
};

static void forms_and_margins(void)
{
    struct job *j = &the_job;
    for (size_t k = 0; k < COUNT_OF(settings); k++) {
        open_job(j, the, 10, 6);
        send_text(j, settings[k].sent);
        form_is(j, settings[k].lines, settings[k].rows, settings[k].top, settings[k].bottom);
    }
}

/* A reset drops the line and leaves the row, in a form with margins too. */
static void resets_in_margins(void)
{
    struct job *j = &the_job;
    open_job(j, the, 10, 6);
    SEND(j, "\033[;3;6r\033[2z\033F\004\000\n" PLOT_LINE "\n\033a\033<\033>A\033c\000");
    EQUAL(j->events, 2);
    EQUAL(row_of(j), 2 * 9 + 9 + 7);
    closes(j, CLOCKTOAD_CLEAN, 0);
    same_line(j);
    SEND(j, "A\v"); /* no tab stands */
    EQUAL(j->events, 2);
    EQUAL(row_of(j), 2 * 9 + 9 + 7);
    SEND(j, "\n\n"); /* rows 43 and 52, of 54 */
    last_event(j, 3, CLOCKTOAD_FORM_FINISHED, 0, j->fed - 1);
    EQUAL(row_of(j), 18);
}

/* Lines 3 to 6 of 10. Tabs outside them count as none, and count again where the margins let them. */
static void tabs_in_margins(void)
{
    struct job *j = &the_job;
    open_job(j, the, 10, 6);
    SEND(j, "\033[;3;6r\033F\001\002\004\010\012\000");
    EQUAL(j->events, 1);
    SEND(j, "\v");
    EQUAL(row_of(j), 36);
    SEND(j, "\v");
    last_event(j, 2, CLOCKTOAD_FORM_FINISHED, 0, j->fed - 1);
    EQUAL(row_of(j), 36);
    SEND(j, "\n\nA\v");
    last_event(j, 3, CLOCKTOAD_FORM_FINISHED, 0, j->fed - 1);
    EQUAL(row_of(j), 36);
    SEND(j, "\0336A\v"); /* none is left within them: as 0D */
    EQUAL(j->events, 3);
    EQUAL(row_of(j), 36);
    closes(j, CLOCKTOAD_CLEAN, 0);
    SEND(j, "\f\033[;1;10r");
    EQUAL(j->events, 5);
    SEND(j, "\v");
    EQUAL(row_of(j), 12);
    SEND(j, "\v");
    EQUAL(row_of(j), 84);
    SEND(j, "\v");
    EQUAL(row_of(j), 108);
    SEND(j, "\v");
    last_event(j, 6, CLOCKTOAD_FORM_FINISHED, 0, j->fed - 1);
    EQUAL(row_of(j), 0);

    open_job(j, the, 10, 6);
    SEND(j, "\033F\002\003\006\007\000\033[;3;6r\v"); /* the margins' own lines are within */
    EQUAL(row_of(j), 60);
    SEND(j, "\v");
    last_event(j, 2, CLOCKTOAD_FORM_FINISHED, 0, j->fed - 1);
    EQUAL(row_of(j), 24);
    SEND(j, "\033[2z\v"); /* the lines stay, the rows are others */
    EQUAL(j->events, 3);
    EQUAL(row_of(j), 45);
    SEND(j, "\f\033[;1;10r\v"); /* lines 2 and 7 stood all the time */
    EQUAL(j->events, 5);
    EQUAL(row_of(j), 9);
    SEND(j, "\v\v\v");
    EQUAL(j->events, 5);
    EQUAL(row_of(j), 54);
    SEND(j, "\v");
    last_event(j, 6, CLOCKTOAD_FORM_FINISHED, 0, j->fed - 1);
    EQUAL(row_of(j), 9);

    open_job(j, the, 10, 6);
    SEND(j, "\033[;3;6r\0335\n\0335\n\0335\0336\f\033[;1;10r\v"); /* lines count from the form's first */
    EQUAL(row_of(j), 24);
    SEND(j, "\v");
    EQUAL(row_of(j), 36);
    SEND(j, "\v");
    last_event(j, 4, CLOCKTOAD_FORM_FINISHED, 0, j->fed - 1);
    EQUAL(row_of(j), 24);

    open_job(j, the, 10, 6);
    SEND(j, "\033F\003\000\033[;3;6r\v"); /* the top margin's alone */
    last_event(j, 2, CLOCKTOAD_FORM_FINISHED, 0, j->fed - 1);
    EQUAL(row_of(j), 24);
}

/* Of tabs on all 112 lines, those past a shorter form are gone when it is long again. */
static void tabs_past_the_form(void)
{
    struct job *j = &the_job;
    for (unsigned lines = 1; lines <= 112; lines++) {
        char form[32];
        open_job(j, the, 112, 8);
        SEND(j, "\033F");
        for (uint8_t n = 1; n <= 112; n++)
            send(j, &n, 1);
        SEND(j, "\0");
        sprintf(form, "\033[%u;1;%ur", lines, lines);
        send(j, form, strlen(form));
        EQUAL(page_due(j), lines * 9 * 850);
        SEND(j, "\033[112;1;112r");
        TIMES(j, lines - 1, "\v");
        EQUAL(j->events, 2);
        SEND(j, "\v");
        last_event(j, 3, CLOCKTOAD_FORM_FINISHED, 0, j->fed - 1);
    }
}

/* In plot mode ESC [ is ESC with another byte, and what follows is plotted. */
static void brackets_in_plot_mode(void)
{
    struct job *j = &the_job;
    open_66();
    SEND(j, "\033d\033[");
    ONLY_NOTE(j, CLOCKTOAD_NOTE_INVALID, 2);
    closes(j, CLOCKTOAD_LINE_UNPRINTED, 0);
    SEND(j, "4w\033>\033?\002\033e\033[6w\033>\033[0w\033[4w");
    EQUAL(j->events, 3);
    EQUAL(j->event[1].place, 6);
    EQUAL(j->event[2].place, 8);
    put(expected_line, 0, 5, (const uint16_t[]){ '4', 'w', 2 }, 3);
    same_line(j);
    obeys(j, "A", 1, 46);
    obeys(j, "\033d", 2, 46);
    obeys(j, "\033[r", 3, 43);
    closes(j, CLOCKTOAD_LINE_UNPRINTED, 0);
}

/* The state of an ESC [ that is begun: the numbers of document 02 kept one more, and its semicolons. */
static const struct { const char *sent; uint64_t count, address, taken, byte; } numbers_kept[] = {
    { "\033[", 0, 0, 0, 0 }, { "\033[0", 1, 0, 0, 0 }, { "\033[;", 0, 0, 0, 1 }, { "\033[;0", 0, 1, 0, 1 },
    { "\033[;;", 0, 0, 0, 2 }, { "\033[12;34;56", 13, 35, 57, 2 }, { "\033[007;;9", 8, 0, 10, 2 },
    { "\033[9998", 9999, 0, 0, 0 }, { "\033[9999", 10000, 0, 0, 0 }, { "\033[10000", 10000, 0, 0, 0 },
    { "\033[65535;65536;65537", 10000, 10000, 10000, 2 }, { "\033[1;99999999999999999999;0000", 2, 10000, 1, 2 },
};

static void numbers_in_the_state(void)
{
    struct job *j = &the_job;
    for (size_t k = 0; k < COUNT_OF(numbers_kept); k++) {
        const uint64_t want[] = {
            numbers_kept[k].count, numbers_kept[k].address, numbers_kept[k].taken, numbers_kept[k].byte,
        };
        open_66();
        SEND(j, TWELVE);
        send(j, numbers_kept[k].sent, strlen(numbers_kept[k].sent));
        closes(j, CLOCKTOAD_COMMAND_UNFINISHED, 12);
        for (enum word w = COUNT; w <= BYTE; w++)
            if (word[w] >= 0)
                EQUAL(j->m.state[word[w]], want[w - COUNT]);
    }
}

/* Words of an ESC [ that is begun, set together, and what then comes of the bytes that end it. */
static const struct { uint64_t count, address, taken, byte; const char *sent; unsigned outcome; } ended[] = {
    { 0, 0, 0, 0, "w", 46 }, { 1, 0, 0, 0, "w", QUIET }, { 5, 0, 0, 0, "w", QUIET }, { 4, 0, 0, 0, "w", 46 },
    { 0, 0, 0, 0, "r", FINISHES }, { 1, 0, 0, 0, "r", 43 }, { 67, 1, 0, 1, "r", 43 }, { 67, 2, 67, 2, "r", FINISHES },
    { 65536, 0, 0, 0, "w", 46 }, { 65536, 0, 0, 0, "z", 46 }, { 65536, 0, 0, 0, "r", 43 },
    { 65536, 0, 0, 0, "9876543210w", 46 },
    { 26216, 0, 0, 0, "0w", 46 }, /* 262,150 is 6 in sixteen bits */
    { 32769, 0, 0, 0, "4w", 46 }, /* 327,684 is 4 */
    { 10001, 0, 0, 0, "w", 46 }, { 0, 65536, 0, 1, "r", 43 }, { 0, 32769, 0, 1, "1r", 43 }, { 0, 0, 65536, 2, "r", 43 },
    { 0, 0, 32769, 2, "5r", 43 }, { 65536, 65536, 65536, 2, "r", 43 }, { 65536, 65536, 65536, 255, "x", 42 },
    { 0, 0, 0, 3, "r", 43 }, { 0, 0, 0, 255, "r", 43 }, { 0, 0, 0, 255, ";r", 43 }, { 0, 0, 0, 255, ";;r", 43 },
    { 5, 0, 0, 255, "w", 46 }, { 5, 0, 0, 255, ";w", 46 }, { 2, 0, 0, 255, ";z", 46 }, { 0, 0, 0, 254, ";;;r", 43 },
};

static void forged_brackets(void)
{
    struct job *j = &the_job;
    for (size_t k = 0; k < COUNT_OF(ended); k++) {
        open_66();
        SEND(j, "\033[");
        forge(j, COUNT, ended[k].count);
        forge(j, ADDRESS, ended[k].address);
        forge(j, TAKEN, ended[k].taken);
        forge(j, BYTE, ended[k].byte);
        answers(j, CLOCKTOAD_USED_UP);
        for (enum word w = COUNT; w <= TAKEN; w++) {
            forged(w, 65536, CLOCKTOAD_USED_UP);
            forged(w, 65537, CLOCKTOAD_UNSOUND);
        }
        forged(BYTE, 255, CLOCKTOAD_USED_UP);
        forged(BYTE, 256, CLOCKTOAD_UNSOUND);
        send(j, ended[k].sent, strlen(ended[k].sent));
        if (ended[k].outcome == QUIET)
            NO_EVENT(j);
        else if (ended[k].outcome == FINISHES)
            last_event(j, 1, CLOCKTOAD_FORM_FINISHED, 0, j->fed - 1);
        else
            ONLY_NOTE(j, ended[k].outcome, 0);
        closes(j, CLOCKTOAD_CLEAN, 0);
    }
}

/* What a cutting job must leave. */
struct expected {
    uint16_t line[NUMBERS];
    uint8_t staging[STORE], store[STORE];
    struct form page, form[FORMS];
};

struct cut_job {
    const char *name;
    unsigned on;
    uint8_t bytes[CUT_JOB];
    size_t events;
    struct event event[4];
    uint64_t closing, place;
    int row; /* -1 in a command or in plot mode, where it can't be looked at */
    void (*expect)(struct expected *);
};

#define NOTE(number, place) { CLOCKTOAD_NOTE, CLOCKTOAD_NOTE_##number, (place) }
#define FORM(place) { CLOCKTOAD_FORM_FINISHED, 0, (place) }

/* A letter in normal pitch on a form, and columns that start the line store. */
static void letter(struct form *form, size_t row, size_t position)
{
    expect_columns(form->dots, row, position, 5, columns_a, 7);
}

static void start(struct expected *e, const uint16_t *wires, size_t count)
{
    put(e->line, 0, the->step[0], wires, count);
}

static void lines_long(struct form *form, size_t rows) { form->bytes = rows * the->row; }

static void expect_nothing(struct expected *e) { (void)e; }

static void expect_letter(struct expected *e) { start(e, columns_a, 7); }

static void expect_notes(struct expected *e)
{
    letter(&e->page, 0, 0);
    letter(&e->page, 0, 50);
    start(e, columns_a, 7);
}

static void expect_features(struct expected *e)
{
    expect_cell(e->page.dots, 0, 0, 5, columns_a, ELONGATED);
    expect_cell(e->page.dots, 0, 100, 5, columns_a, ELONGATED | UNDERSCORED);
    expect_cell(e->page.dots, 0, 200, 5, columns_a, UNDERSCORED);
}

static void expect_header(struct expected *e) { memcpy(e->staging, "\x01\x02\x03\x04\x05\x06", 6); }

static void expect_short_download(struct expected *e) { memcpy(e->staging, "\x55\xAA", 2); }

static void expect_checksum(struct expected *e)
{
    memcpy(e->staging, "\x55\xAA", 2);
    start(e, columns_a, 7);
}

static void expect_plot(struct expected *e)
{
    static const uint16_t columns[3] = { 0x7F, 0x1B, 0x0A };
    expect_columns(e->page.dots, 0, 0, 5, columns, 3);
    start(e, columns_a, 7);
}

static void expect_faulty_plot(struct expected *e)
{
    static const uint16_t columns[3] = { 0x0C, 0x1B, 0x0D };
    start(e, columns, 3);
}

static void expect_forms(struct expected *e)
{
    letter(&e->form[0], 0, 0);
    blacken(e->form[2].dots, 8, 0);
    letter(&e->form[3], 0, 0);
}

static void expect_pitches(struct expected *e)
{
    expect_columns(e->form[0].dots, 0, 0, 3, columns_a, 7);
    letter(&e->form[0], 12, 0);
    start(e, columns_a, 7);
}

static void expect_plot_newlines(struct expected *e)
{
    blacken(e->page.dots, 8, 0);
    start(e, columns_a, 7);
}

static void expect_styles(struct expected *e)
{
    expect_columns(e->page.dots, 0, 0, 3, columns_a, 7);
    expect_cell(e->page.dots, 0, 30, 5, columns_a, ELONGATED);
}

static void expect_pitches_in_a_line(struct expected *e)
{
    letter(&e->page, 0, 0);
    expect_columns(e->page.dots, 0, 50, 3, columns_a, 7);
    expect_cell(e->page.dots, 0, 80, 3, columns_a, ELONGATED);
    expect_cell(e->page.dots, 0, 140, 5, columns_a, ELONGATED);
    put_cell(e->line, 0, 5, columns_a, ELONGATED);
}

static void expect_form_change(struct expected *e)
{
    letter(&e->form[0], 0, 0);
    lines_long(&e->form[1], 5 * 12);
    letter(&e->form[1], 12, 0);
    lines_long(&e->page, 5 * 12);
}

static void expect_spacing(struct expected *e)
{
    lines_long(&e->form[1], 3 * 9);
    letter(&e->form[1], 0, 0);
    lines_long(&e->page, 3 * 9);
    letter(&e->page, 0, 0);
}

static void expect_first_letter(struct expected *e) { letter(&e->page, 0, 0); }

static void expect_two_letters(struct expected *e)
{
    put(e->line, 0, 5, columns_a, 7);
    put(e->line, 50, 5, columns_a, 7);
}

static void expect_margins(struct expected *e)
{
    letter(&e->form[1], 12, 0);
    letter(&e->form[2], 12, 0);
}

static void expect_condensed(struct expected *e) { expect_columns(e->page.dots, 0, 0, 3, columns_a, 7); }

static void expect_bracket_in_plot(struct expected *e)
{
    e->line[0] = 0x41;
    e->line[5] = 0x36;
}

static void expect_short_form(struct expected *e) { lines_long(&e->page, 2 * 12); }

static void expect_form_as_it_is(struct expected *e)
{
    letter(&e->form[0], 0, 0);
    letter(&e->page, 0, 0);
}

static void expect_short_forms(struct expected *e)
{
    letter(&e->form[0], 0, 0);
    lines_long(&e->form[1], 1 * 12);
    letter(&e->form[1], 0, 0);
    lines_long(&e->page, 1 * 12);
    start(e, columns_a, 7);
}

/* On 3 lines at 6 an inch, with glyph_a as the font's A. */
static const struct cut_job cut_jobs[] = {
    { "notes", ON_LP2, { 'A', 0x80, 'A', 0x1B, '>', 0x1B, '0', 0x0A, 0x09, 0x0D, 'A', 0x07 }, 4,
      { NOTE(INVALID, 1), NOTE(INVALID, 3), NOTE(UNKNOWN_COMMAND, 5), NOTE(INVALID, 8) },
      CLOCKTOAD_LINE_UNPRINTED, 0, 12, expect_notes },
    { "features", ON_BOTH, { 0x1B, '<', 'A', 0x1B, 'a', 'A', 0x1B, '=', 'A', 0x1B, 'b', 0x0A }, 0,
      { { 0, 0, 0 } }, CLOCKTOAD_CLEAN, 0, 12, expect_features },
    { "tab list", ON_BOTH, { 0x1B, 'F', 2, 99, 3, 0x0A, 0, 0x0B, 0x0B, 0x0B, 'A', 0x1B }, 3,
      { NOTE(TAB_ITEM, 3), NOTE(TAB_ITEM, 5), FORM(9) },
      CLOCKTOAD_COMMAND_UNFINISHED, 11, -1, expect_letter },
    { "half a tab list", ON_BOTH, { 0x0A, 0x1B, '5', 0x1B, 'F', 3, 0, 0x0B, 0x1B, 'F', 1, 4 }, 1,
      { NOTE(TAB_ITEM, 11) }, CLOCKTOAD_COMMAND_UNFINISHED, 8, -1, expect_nothing },
    { "tabs set and cleared", ON_BOTH, { 0x1B, '5', 0x0A, 0x1B, '5', 0x0B, 0x1B, '6', 0x0B, 0x1B, '6', 0x0B }, 1,
      { FORM(5) }, CLOCKTOAD_CLEAN, 0, 12, expect_nothing },
    { "download header", ON_BOTH, { 0x1B, 'Y', 0x00, 0x10, 0x08, 0x00, 1, 2, 3, 4, 5, 6 }, 0,
      { { 0, 0, 0 } }, CLOCKTOAD_COMMAND_UNFINISHED, 0, -1, expect_header },
    { "empty download", ON_BOTH, { 0x1B, 'Y', 0x00, 0x00, 0x08, 0x00, 0x00, 0x1B, 'Y', 0x00, 0x00, 0x09 }, 1,
      { NOTE(INVALID, 0) }, CLOCKTOAD_COMMAND_UNFINISHED, 7, -1, expect_nothing },
    { "short download", ON_BOTH, { 0x1B, 'Y', 0x00, 0x02, 0x08, 0x00, 0x55, 0xAA, 0x01, 0x1B, 'N', 0x04 }, 1,
      { NOTE(INVALID, 0) }, CLOCKTOAD_COMMAND_UNFINISHED, 9, -1, expect_short_download },
    { "checksum", ON_BOTH, { 0x0A, 0x1B, 'Y', 0x00, 0x02, 0x08, 0x00, 0x55, 0xAA, 0x02, 'A', 0x1B }, 1,
      { NOTE(CHECKSUM, 1) }, CLOCKTOAD_COMMAND_UNFINISHED, 11, -1, expect_checksum },
    { "plot", ON_BOTH, { 0x1B, 'd', 0x7F, 0x1B, 0x1B, 0x80, 0x0A, 0x1B, 'e', 'A', 0x0A, 'A' }, 2,
      { NOTE(INVALID, 5), NOTE(INVALID, 9) }, CLOCKTOAD_LINE_UNPRINTED, 0, 7, expect_plot },
    { "faulty plot", ON_BOTH, { 0x1B, 'd', 0x0C, 0x1B, '0', 0x1B, 0x1B, 0x1B, 'd', 0x0D, 0xFF, 0x1B }, 3,
      { NOTE(INVALID, 3), NOTE(INVALID, 7), NOTE(INVALID, 10) },
      CLOCKTOAD_COMMAND_UNFINISHED, 11, -1, expect_faulty_plot },
    { "plot newlines", ON_BOTH, { 0x1B, 'd', 0x01, 0x1B, 'e', 0x0D, 0x1B, 'd', 0x1B, 'e', 0x0A, 'A' }, 0,
      { { 0, 0, 0 } }, CLOCKTOAD_LINE_UNPRINTED, 0, 7, expect_plot_newlines },
    { "form feeds", ON_BOTH, { 'A', 0x0C, 0x0C, 0x1B, 'd', 0x01, 0x1B, 'e', 0x0C, 'A', 0x0D, 0x0C }, 4,
      { FORM(1), FORM(2), FORM(8), FORM(11) }, CLOCKTOAD_CLEAN, 0, 0, expect_forms },
    { "pitches", ON_LP2, { 0x1B, '>', 'A', 0x1B, '?', 0x0A, 0x1B, '?', 'A', 0x0A, 0x0A, 'A' }, 2,
      { NOTE(INVALID, 3), FORM(10) }, CLOCKTOAD_LINE_UNPRINTED, 0, 0, expect_pitches },
    { "resets", ON_BOTH, { 0x1B, 'a', 'A', 0x1B, 'c', 0x00, 0x1B, 'c', 0x01, 0x1B, 'c', 'A' }, 2,
      { NOTE(INVALID, 6), NOTE(INVALID, 9) }, CLOCKTOAD_CLEAN, 0, 0, expect_nothing },
    { "glyph sets", ON_BOTH, { 0x1B, 'N', 0x04, 0x00, 'A', 0x1B, 'N', 0x05, 0x1B, 0x0A, 0x1B, 'O' }, 1,
      { NOTE(INVALID, 5) }, CLOCKTOAD_CLEAN, 0, 12, expect_nothing },
    { "styles", ON_6215, { 0x1B, '[', '6', 'w', 'A', 0x1B, '[', '0', 'w', 'A', 0x0A, 0x07 }, 0,
      { { 0, 0, 0 } }, CLOCKTOAD_CLEAN, 0, 12, expect_styles },
    { "pitches in a line", ON_6215, { 'A', 0x1B, '>', 'A', 0x1B, '<', 'A', 0x1B, '?', 'A', 0x0D, 'A' }, 0,
      { { 0, 0, 0 } }, CLOCKTOAD_LINE_UNPRINTED, 0, 0, expect_pitches_in_a_line },
    { "form change", ON_6215, { 'A', 0x0D, 0x1B, '[', '5', ';', '2', 'r', 'A', 0x0A, 0x0A, 0x07 }, 2,
      { FORM(7), FORM(10) }, CLOCKTOAD_CLEAN, 0, 12, expect_form_change },
    { "shorter form", ON_6215, { 'A', 0x0D, 0x1B, '[', '1', ';', ';', '1', 'r', 'A', 0x0A, 'A' }, 2,
      { FORM(8), FORM(10) }, CLOCKTOAD_LINE_UNPRINTED, 0, 0, expect_short_forms },
    { "spacing", ON_6215, { 0x1B, '[', '2', 'z', 'A', 0x0A, 0x0A, 0x0A, 'A', 0x0D, 0x1B, '[' }, 2,
      { FORM(3), FORM(7) }, CLOCKTOAD_COMMAND_UNFINISHED, 10, -1, expect_spacing },
    { "out of place", ON_6215, { 'A', 0x1B, '[', '2', 'z', 0x0A, 0x1B, '[', ';', '2', 'r', 0x0D }, 2,
      { NOTE(FORM, 1), NOTE(FORM, 6) }, CLOCKTOAD_CLEAN, 0, 12, expect_first_letter },
    { "bad values", ON_6215, { 0x1B, '[', '3', 'w', 0x1B, '[', '4', ';', 'w', 0x1B, '[', 'w' }, 3,
      { NOTE(INVALID, 0), NOTE(INVALID, 4), NOTE(INVALID, 9) }, CLOCKTOAD_CLEAN, 0, 0, expect_nothing },
    { "other endings", ON_6215, { 0x1B, '[', '1', 0x1B, 'A', 0x1B, '[', 0x0A, 0x1B, '[', 0x80, 'A' }, 3,
      { NOTE(UNKNOWN_COMMAND, 0), NOTE(UNKNOWN_COMMAND, 5), NOTE(UNKNOWN_COMMAND, 8) },
      CLOCKTOAD_LINE_UNPRINTED, 0, 0, expect_two_letters },
    { "margins", ON_6215, { 0x1B, '[', ';', '2', ';', '2', 'r', 'A', 0x0A, 'A', 0x0C, 0x07 }, 3,
      { FORM(6), FORM(8), FORM(10) }, CLOCKTOAD_CLEAN, 0, 12, expect_margins },
    { "bad forms", ON_6215, { 0x1B, '[', '9', ';', '4', 'r', 0x1B, '[', ';', ';', ';', 'r' }, 2,
      { NOTE(FORM, 0), NOTE(FORM, 6) }, CLOCKTOAD_CLEAN, 0, 0, expect_nothing },
    { "a long number", ON_6215, { 0x1B, '[', '6', '5', '5', '4', '0', 'w', 'A', 0x0A, 0x1B, '[' }, 1,
      { NOTE(INVALID, 0) }, CLOCKTOAD_COMMAND_UNFINISHED, 10, -1, expect_first_letter },
    { "leading zeros", ON_6215, { 0x1B, '[', '0', '0', '0', '0', '0', '0', '6', 'w', 'A', 0x0A }, 0,
      { { 0, 0, 0 } }, CLOCKTOAD_CLEAN, 0, 12, expect_condensed },
    { "brackets and a plot", ON_6215, { 0x1B, 'd', 0x41, 0x1B, '[', '6', 0x1B, 'e', 0x1B, '[', '6', 'w' }, 1,
      { NOTE(INVALID, 3) }, CLOCKTOAD_LINE_UNPRINTED, 0, 0, expect_bracket_in_plot },
    { "a tab outside the margins", ON_6215, { 0x1B, 'F', 1, 3, 0, 0x1B, '[', ';', ';', '2', 'r', 0x0B }, 2,
      { FORM(10), FORM(11) }, CLOCKTOAD_CLEAN, 0, 0, expect_nothing },
    { "a tab past the form", ON_6215, { 0x1B, 'F', 3, 0, 0x1B, '[', '2', ';', ';', '2', 'r', 0x0B }, 1,
      { FORM(10) }, CLOCKTOAD_CLEAN, 0, 0, expect_short_form },
    { "a reset in margins", ON_6215, { 0x1B, '[', ';', '2', 'r', 'A', 0x1B, 'c', 0x00, 0x0A, 0x0A, 0x07 }, 2,
      { FORM(4), FORM(10) }, CLOCKTOAD_CLEAN, 0, 12, expect_nothing },
    { "a form as it is", ON_6215, { 'A', 0x0D, 0x1B, '[', 'r', 0x1B, '[', ';', 'r', 'A', 0x0A, 0x07 }, 2,
      { FORM(4), FORM(8) }, CLOCKTOAD_CLEAN, 0, 12, expect_form_as_it_is },
};

/* Bit k of the cutting: cut after byte k. An empty piece goes before each. */
static void feed_cut(struct job *j, const struct cut_job *job)
{
    size_t from = 0;
    for (size_t k = 0; k < CUT_JOB; k++) {
        if (k + 1 < CUT_JOB && !(cutting >> k & 1))
            continue;
        send(j, job->bytes + from, 0);
        send(j, job->bytes + from, k + 1 - from);
        from = k + 1;
    }
}

static void compare_cut(struct job *j, const struct cut_job *job, const struct expected *e)
{
    size_t forms = 0;
    EQUAL(j->events, job->events);
    for (size_t k = 0; k < job->events; k++) {
        EQUAL(j->event[k].answer, job->event[k].answer);
        EQUAL(j->event[k].number, job->event[k].number);
        EQUAL(j->event[k].place, job->event[k].place);
        forms += job->event[k].answer == CLOCKTOAD_FORM_FINISHED;
    }
    EQUAL(j->forms, forms);
    for (size_t k = 0; k < forms; k++) {
        EQUAL(j->form[k].bytes, e->form[k].bytes);
        CHECK(memcmp(j->form[k].dots, e->form[k].dots, e->form[k].bytes) == 0);
    }
    EQUAL(j->n.page, e->page.bytes);
    CHECK(memcmp(j->m.page, e->page.dots, e->page.bytes) == 0);
    CHECK(memcmp(j->m.line, e->line, the->line * sizeof *e->line) == 0);
    CHECK(memcmp(j->m.staging, e->staging, STORE) == 0);
    CHECK(memcmp(j->m.store, e->store, STORE) == 0);
    closes(j, job->closing, job->place);
    within(j);
    CHECK(j->m.report[REPORT] == FILL);
}

/* Each cutting leaves what is expected, and the state that the uncut job, the first of them, left. */
static void cuttings(void)
{
    static struct expected e;
    static uint64_t uncut[WORDS];
    struct job *j = &the_job;
    for (size_t n = 0; n < COUNT_OF(cut_jobs); n++) {
        const struct cut_job *job = &cut_jobs[n];
        if (!is_on(job->on))
            continue;
        job_name = job->name;
        memset(&e, 0, sizeof e);
        lines_long(&e.page, 3 * 12);
        for (size_t k = 0; k < FORMS; k++)
            lines_long(&e.form[k], 3 * 12);
        job->expect(&e);
        for (cutting = 0; cutting < 1u << (CUT_JOB - 1); cutting++) {
            open_job(j, the, 3, 6);
            set_glyph(j->m.font, 'A', glyph_a);
            feed_cut(j, job);
            compare_cut(j, job, &e);
            if (cutting == 0)
                memcpy(uncut, j->m.state, sizeof uncut);
            CHECK(memcmp(j->m.state, uncut, sizeof uncut) == 0);
            if (job->row >= 0 && cutting % 64 == 0)
                EQUAL(row_of(j), (uint64_t)job->row);
        }
    }
    job_name = "";
}

int main(void)
{
    static const struct { void (*run)(void); unsigned on; } tests[] = {
        { case_a_to_c, ON_BOTH }, { case_d_to_g, ON_BOTH }, { case_h, ON_BOTH }, { case_i, ON_BOTH },
        { case_j, ON_BOTH }, { case_k_and_l, ON_BOTH }, { lengths_of_slices, ON_BOTH }, { sizes, ON_BOTH },
        { sizes_of_no_model, ON_BOTH }, { every_form, ON_BOTH }, { refused_openings, ON_BOTH },
        { refused_feedings, ON_BOTH }, { refused_reports, ON_BOTH }, { refused_states, ON_BOTH },
        { due_of_no_state, ON_BOTH }, { forged_numbers, ON_BOTH }, { forged_forms, ON_BOTH },
        { forged_models, ON_6215 }, { forged_tabs, ON_BOTH }, { forged_words, ON_BOTH }, { forged_ranges, ON_BOTH },
        { forged_kinds, ON_BOTH }, { job_limit, ON_BOTH }, { job_limit_in_brackets, ON_6215 }, { every_byte, ON_BOTH },
        { every_command, ON_BOTH }, { every_plot_byte, ON_BOTH }, { operands, ON_BOTH }, { striking, ON_BOTH },
        { striking_strange_lines, ON_BOTH }, { features, ON_BOTH }, { lasting_features, ON_BOTH },
        { plotting, ON_BOTH }, { tab_items, ON_BOTH }, { tabs_and_rows, ON_BOTH }, { download_headers, ON_BOTH },
        { download_glyphs, ON_BOTH }, { downloaded_glyphs, ON_BOTH }, { resets, ON_BOTH }, { long_pieces, ON_BOTH },
        { forged_positions, ON_BOTH }, { brackets_of_lp2, ON_LP2 }, { print_styles, ON_6215 },
        { ends_of_lines, ON_6215 }, { striking_mixed_lines, ON_6215 }, { striking_styles, ON_6215 },
        { every_bracket_byte, ON_6215 }, { bracket_values, ON_6215 }, { long_brackets, ON_6215 },
        { in_and_out_of_place, ON_6215 }, { what_a_form_change_leaves, ON_6215 }, { forms_and_margins, ON_6215 },
        { resets_in_margins, ON_6215 }, { tabs_in_margins, ON_6215 }, { tabs_past_the_form, ON_6215 },
        { brackets_in_plot_mode, ON_6215 }, { numbers_in_the_state, ON_6215 }, { forged_brackets, ON_6215 },
        { cuttings, ON_BOTH },
    };
    find_words();
    for (size_t model = 0; model < MODELS; model++) {
        the = &editions[model];
        for (size_t k = 0; k < COUNT_OF(tests); k++)
            if (is_on(tests[k].on))
                tests[k].run();
    }
    if (untested > 0)
        printf("%lu numbers of the state not found, so not forged\n", untested);
    printf("%lu checks passed\n", checks);
    return 0;
}
