#include "twin.h"

#include <stdbool.h>
#include <string.h>

#if __BYTE_ORDER__ != __ORDER_LITTLE_ENDIAN__
#error "a 6215's line is struck by words that hold its first position lowest"
#endif

enum {
    ROW_BYTES = 825, /* of an LP2 */
    COLUMNS = 2200,
    ROW_BYTES_6215 = 850,
    POSITIONS_6215 = 6800,
    LINES_MAX_6215 = 112,
    STORE = 2048,
    GLYPH = 16,
    WIRES = 9,
    NUMBER_MAX = 9999, /* of ESC [; no command takes it, or one above */
    ESC = 0x1B
};

#define JOB_LIMIT UINT32_MAX

/* For what is compiled once for each model or pitch, with its numbers as constants. */
#define INLINE static inline __attribute__((always_inline))

/* For a 6215's loops, which stand by themselves: they take no register from an LP2's. */
#define APART static __attribute__((noinline))

struct model {
    uint32_t row_bytes, line_numbers, lines_max;
    uint32_t commands; /* its own are those below */
};

static const struct model model_lp2 = { ROW_BYTES, COLUMNS, 99, TWIN_BRACKET };
static const struct model model_6215 = { ROW_BYTES_6215, POSITIONS_6215, LINES_MAX_6215, TWIN_COMMANDS };

/* One call's view of the lent memory, and where it stands in the piece. */
struct call {
    struct twin *s;
    uint8_t *page;
    uint16_t *line;
    uint8_t *staging;
    uint8_t *store;
    const uint8_t *font;
    const uint8_t *at, *end;
    const uint8_t *piece;
    uint32_t before; /* bytes of the job before the piece */
    uint32_t note, note_place;
};

/* What a byte, or a run of bytes, leads to. */
enum outcome { GO_ON = 0, FORM = 1, NOTE = 2 };

static bool is_lp2(const struct twin *s) { return s->model == TWIN_LP2; }

static uint32_t line_rows(uint32_t spacing) { return spacing == 6 ? 12 : 9; }

/* Positions of an LP2's line, which are columns, and of one column of a 6215. */
static uint32_t width(const struct twin *s) { return s->compressed ? 2200 : 1320; }

static uint32_t step(const struct twin *s) { return s->compressed ? 3 : 5; }

static uint32_t current_line(const struct twin *s) { return 1 + s->row / line_rows(s->spacing); }

static uint32_t first_row(const struct twin *s) { return (s->top - 1) * line_rows(s->spacing); }

/* Lines 1..L, so neither bit 0 nor one above L. */
static bool tabs_fit(const struct twin *s)
{
    uint64_t above = s->lines < 64 ? s->tabs[1] | s->tabs[0] >> s->lines >> 1 : s->tabs[1] >> (s->lines - 64) >> 1;
    return !(above | (s->tabs[0] & 1));
}

INLINE bool sound_but_for_margins(const struct twin *s, const struct model *model, uint32_t positions)
{
    if (s->lines < 1 || s->lines > model->lines_max || (s->spacing != 6 && s->spacing != 8))
        return false;
    if (s->row > s->bottom * line_rows(s->spacing) - WIRES || s->column > positions || !tabs_fit(s))
        return false;
    if (s->count > 65535 || s->address > 65535 || s->taken > s->count)
        return false;
    if (s->command >= model->commands || (s->command != TWIN_NONE && s->place >= s->length))
        return false;
    if (s->fresh && (s->column != 0 || s->plot_line))
        return false;
    return !s->plot_mode || (s->plot_line && s->command <= TWIN_ESC);
}

INLINE bool sound_lp2(const struct twin *s)
{
    return s->top == 1 && s->bottom == s->lines && sound_but_for_margins(s, &model_lp2, width(s));
}

INLINE bool sound_6215(const struct twin *s)
{
    return s->model == TWIN_6215 && s->top >= 1 && s->top <= s->bottom && s->bottom <= s->lines &&
           s->row >= first_row(s) && sound_but_for_margins(s, &model_6215, POSITIONS_6215);
}

static bool sound(const struct twin *s) { return is_lp2(s) ? sound_lp2(s) : sound_6215(s); }

INLINE size_t page_bytes(const struct twin *s, const struct model *model)
{
    return (size_t)s->lines * line_rows(s->spacing) * model->row_bytes;
}

INLINE uint64_t wrong_length(const struct twin *s, const struct model *model, size_t page_len, size_t line_len,
                             size_t staging_len, size_t store_len, size_t font_len)
{
    if (page_len != page_bytes(s, model))
        return 11;
    if (line_len != model->line_numbers)
        return 12;
    if (staging_len != STORE)
        return 13;
    if (store_len != STORE)
        return 14;
    return font_len != STORE ? 15 : 0;
}

static enum outcome note(struct call *c, uint32_t number, uint32_t place)
{
    c->note = number;
    c->note_place = place;
    return NOTE;
}

static uint32_t place_of(const struct call *c, const uint8_t *byte)
{
    return c->before + (uint32_t)(byte - c->piece);
}

/* Ends the begun command with a note at its first byte. */
static enum outcome fault(struct call *c, uint32_t number)
{
    c->s->command = TWIN_NONE;
    return note(c, number, c->s->place);
}

/*
 * Eight columns fill whole bytes of a row: five in normal pitch, three in compressed. These give
 * the bytes for one wire of eight columns; column k is bit k of the index.
 */
#define C(b, k) ((b) >> (k) & 1)
#define NORMAL(b) \
    { C(b, 0) << 7 | C(b, 1) << 2, C(b, 2) << 5 | C(b, 3), C(b, 4) << 3, C(b, 5) << 6 | C(b, 6) << 1, C(b, 7) << 4 }
#define COMPRESSED(b) \
    { C(b, 0) << 7 | C(b, 1) << 4 | C(b, 2) << 1, C(b, 3) << 6 | C(b, 4) << 3 | C(b, 5), C(b, 6) << 5 | C(b, 7) << 2 }
#define FOUR(of, b) of(b), of((b) + 1), of((b) + 2), of((b) + 3)
#define SIXTEEN(of, b) FOUR(of, b), FOUR(of, (b) + 4), FOUR(of, (b) + 8), FOUR(of, (b) + 12)
#define QUARTER(of, b) SIXTEEN(of, b), SIXTEEN(of, (b) + 16), SIXTEEN(of, (b) + 32), SIXTEEN(of, (b) + 48)
#define WHOLE(of) { QUARTER(of, 0), QUARTER(of, 64), QUARTER(of, 128), QUARTER(of, 192) }

static const uint8_t normal_dots[256][8] = WHOLE(NORMAL);
static const uint8_t compressed_dots[256][4] = WHOLE(COMPRESSED);

static void blacken_normal(uint8_t *at, const uint8_t *dots)
{
    uint32_t page, line;
    memcpy(&page, at, 4);
    memcpy(&line, dots, 4);
    page |= line;
    memcpy(at, &page, 4);
    at[4] |= dots[4];
}

static void blacken_compressed(uint8_t *at, const uint8_t *dots)
{
    uint16_t page, line;
    memcpy(&page, at, 2);
    memcpy(&line, dots, 2);
    page |= line;
    memcpy(at, &page, 2);
    at[2] |= dots[2];
}

static bool white(const uint16_t *column)
{
    uint64_t half[2];
    memcpy(half, column, sizeof half);
    return !(half[0] | half[1]);
}

/* Wires 2 to 9 of eight columns, wire 2 in the highest byte; column k is bit k of each. */
static uint64_t rotate(const uint16_t *column)
{
#define LOW(k) ((uint64_t)(column[k] & 0xFF) << 8 * (k))
    uint64_t x = LOW(0) | LOW(1) | LOW(2) | LOW(3) | LOW(4) | LOW(5) | LOW(6) | LOW(7), t;
#undef LOW
    t = (x ^ (x >> 7)) & UINT64_C(0x00AA00AA00AA00AA);
    x ^= t ^ (t << 7);
    t = (x ^ (x >> 14)) & UINT64_C(0x0000CCCC0000CCCC);
    x ^= t ^ (t << 14);
    t = (x ^ (x >> 28)) & UINT64_C(0x00000000F0F0F0F0);
    return x ^ t ^ (t << 28);
}

/* Wire 1 of eight columns. */
static unsigned top_wire(const uint16_t *column)
{
    return (column[0] >> 8 & 1u) | (column[1] >> 7 & 2u) | (column[2] >> 6 & 4u) | (column[3] >> 5 & 8u) |
           (column[4] >> 4 & 16u) | (column[5] >> 3 & 32u) | (column[6] >> 2 & 64u) | (column[7] >> 1 & 128u);
}

static void strike_normal(uint8_t *at, const uint16_t *line)
{
    for (uint32_t k = 0; k < 1320; k += 8, at += 5) {
        if (white(line + k))
            continue;
        uint64_t wires = rotate(line + k);
        blacken_normal(at, normal_dots[top_wire(line + k)]);
        for (int i = 1; i < WIRES; i++, wires <<= 8)
            blacken_normal(at + i * ROW_BYTES, normal_dots[wires >> 56]);
    }
}

static void strike_compressed(uint8_t *at, const uint16_t *line)
{
    for (uint32_t k = 0; k < 2200; k += 8, at += 3) {
        if (white(line + k))
            continue;
        uint64_t wires = rotate(line + k);
        blacken_compressed(at, compressed_dots[top_wire(line + k)]);
        for (int i = 1; i < WIRES; i++, wires <<= 8)
            blacken_compressed(at + i * ROW_BYTES, compressed_dots[wires >> 56]);
    }
}

/* Sixteen positions of a 6215 fill two bytes of a row. */
static void blacken_two(uint8_t *at, uint64_t dots)
{
    uint16_t page;
    memcpy(&page, at, 2);
    page |= (uint16_t)dots;
    memcpy(at, &page, 2);
}

static void blacken_four_rows(uint8_t *at, uint64_t rows)
{
    blacken_two(at, rows);
    blacken_two(at + ROW_BYTES_6215, rows >> 16);
    blacken_two(at + 2 * ROW_BYTES_6215, rows >> 32);
    blacken_two(at + 3 * ROW_BYTES_6215, rows >> 48);
}

static uint64_t four_positions(const uint16_t *line)
{
    uint64_t four;
    memcpy(&four, line, sizeof four);
    return four;
}

/* Wire 1 of sixteen positions, four in each of a to d: the two bytes of its row. */
INLINE uint64_t top_wire_of_sixteen(uint64_t a, uint64_t b, uint64_t c, uint64_t d)
{
    const uint64_t low = UINT64_C(0x0001000100010001), high = low << 8;
    uint64_t x = ((a >> 8 & low) | (c & high)) << 7 | ((b >> 8 & low) | (d & high)) << 3;
    x |= x >> 17;
    return x | x >> 34;
}

/* Exchanges two bits of a position, which tell its place in the word, with two of a wire. */
INLINE uint64_t turn(uint64_t x)
{
    uint64_t t = (x ^ (x >> 34)) & UINT64_C(0x0000000033333333);
    x ^= t ^ (t << 34);
    t = (x ^ (x >> 17)) & UINT64_C(0x0000555500005555);
    return x ^ t ^ (t << 17);
}

/*
 * Wires 2 to 9 come out as two words of four rows, two bytes each. Of a position's four bits the
 * highest tells its byte from the start, the next is exchanged between the words and two within.
 */
INLINE void strike_sixteen(uint8_t *at, uint64_t a, uint64_t b, uint64_t c, uint64_t d)
{
    const uint64_t low = UINT64_C(0x00FF00FF00FF00FF);
    uint64_t first = (a & low) | (c & low) << 8, second = (b & low) | (d & low) << 8;
    uint64_t t = (first ^ (second >> 4)) & UINT64_C(0x0F0F0F0F0F0F0F0F);
    blacken_two(at, top_wire_of_sixteen(a, b, c, d));
    blacken_four_rows(at + ROW_BYTES_6215, turn(first ^ t));
    blacken_four_rows(at + 5 * ROW_BYTES_6215, turn(second ^ (t << 4)));
}

/* Strikes and clears what stands before `end`; from there on the store holds zeros. */
APART void strike_6215(uint8_t *at, uint16_t *line, uint32_t end)
{
    for (const uint16_t *stop = line + end; line < stop; line += 16, at += 2) {
        uint64_t a = four_positions(line), b = four_positions(line + 4);
        uint64_t c = four_positions(line + 8), d = four_positions(line + 12);
        if (!(a | b | c | d))
            continue;
        memset(line, 0, 16 * sizeof *line);
        strike_sixteen(at, a, b, c, d);
    }
}

static void strike_lp2(uint8_t *at, uint16_t *line, bool compressed)
{
    if (compressed)
        strike_compressed(at, line);
    else
        strike_normal(at, line);
    memset(line, 0, COLUMNS * sizeof *line);
}

static void strike(struct call *c)
{
    const struct twin *s = c->s;
    if (is_lp2(s))
        strike_lp2(c->page + (size_t)s->row * ROW_BYTES, c->line, s->compressed);
    else
        strike_6215(c->page + (size_t)s->row * ROW_BYTES_6215, c->line, s->column);
}

static void fresh_line(struct twin *s)
{
    s->column = 0;
    s->fresh = 1;
    s->plot_line = 0;
}

static enum outcome next_form(struct twin *s)
{
    s->row = first_row(s);
    return FORM;
}

static enum outcome newline(struct twin *s)
{
    uint32_t rows = line_rows(s->spacing);
    s->row += s->plot_line ? 7 : rows;
    return s->row + WIRES <= s->bottom * rows ? GO_ON : next_form(s);
}

/* The first tabbed line from `from` to the bottom margin, 0 if none. */
static uint32_t tab_from(const struct twin *s, uint32_t from)
{
    uint64_t low = from < 64 ? s->tabs[0] >> from << from : 0;
    uint64_t high = from < 64 ? s->tabs[1] : s->tabs[1] >> (from - 64) << (from - 64);
    uint32_t tab = 0;
    if (low)
        tab = (uint32_t)__builtin_ctzll(low);
    else if (high)
        tab = 64 + (uint32_t)__builtin_ctzll(high);
    return tab <= s->bottom ? tab : 0;
}

static enum outcome vertical_tab(struct twin *s)
{
    enum outcome outcome = GO_ON;
    uint32_t to = tab_from(s, current_line(s) + 1);
    if (!to) {
        to = tab_from(s, s->top);
        if (!to)
            return GO_ON;
        outcome = FORM;
    }
    s->row = (to - 1) * line_rows(s->spacing);
    return outcome;
}

static enum outcome terminate(struct call *c, uint8_t byte)
{
    enum outcome outcome = GO_ON;
    strike(c);
    switch (byte) {
    case 0x0A:
        outcome = newline(c->s);
        break;
    case 0x0B:
        outcome = vertical_tab(c->s);
        break;
    case 0x0C:
        outcome = next_form(c->s);
        break;
    }
    fresh_line(c->s);
    return outcome;
}

static bool prints(uint8_t byte) { return byte >= 0x20 && byte <= 0x7E; }

static unsigned glyph_column(const uint8_t *glyph, int k)
{
    return (unsigned)(glyph[2 * k + 2] << 8 | glyph[2 * k + 3]) & 511;
}

INLINE void enter(uint16_t *cell, const uint8_t *glyph, int step)
{
    for (int k = 0; k < 7; k++)
        cell[k * step] |= (uint16_t)glyph_column(glyph, k);
}

INLINE void enter_elongated(uint16_t *cell, const uint8_t *glyph, int step)
{
    for (int k = 0; k < 7; k++) {
        uint16_t wires = (uint16_t)glyph_column(glyph, k);
        cell[2 * k * step] |= wires;
        cell[(2 * k + 1) * step] |= wires;
    }
}

/* Enters one character; a column takes `step` positions. */
INLINE void enter_character(struct twin *s, uint16_t *line, const uint8_t *glyph, uint32_t cell, uint32_t step)
{
    uint16_t *to = line + s->column;
    if (s->elongated)
        enter_elongated(to, glyph, (int)step);
    else
        enter(to, glyph, (int)step);
    if (s->underscore)
        for (uint32_t k = 0; k < cell; k += 2 * step)
            to[k] |= 1;
    s->column += cell;
    s->fresh = 0;
}

/* Enters the printing bytes that come next, up to one that has no room, and returns where it stopped. */
INLINE const uint8_t *enter_run(struct twin *s, uint16_t *line, const uint8_t *glyphs,
                                const uint8_t *at, const uint8_t *end, uint32_t step)
{
    const uint32_t cell = s->elongated ? 20 * step : 10 * step;
    for (; at < end && prints(*at) && s->column + cell <= POSITIONS_6215; at++)
        enter_character(s, line, glyphs + *at * GLYPH, cell, step);
    return at;
}

APART const uint8_t *enter_run_6215(struct twin *s, uint16_t *line, const uint8_t *glyphs,
                                    const uint8_t *at, const uint8_t *end)
{
    return s->compressed ? enter_run(s, line, glyphs, at, end, 3) : enter_run(s, line, glyphs, at, end, 5);
}

static enum outcome print_6215(struct call *c, const uint8_t *glyphs)
{
    c->at = enter_run_6215(c->s, c->line, glyphs, c->at, c->end);
    if (c->at == c->end || !prints(*c->at))
        return GO_ON;
    c->at++;
    return note(c, 44, place_of(c, c->at - 1));
}

/* Takes the printing bytes that come next, at least one. */
static enum outcome print(struct call *c)
{
    struct twin *s = c->s;
    const uint8_t *glyphs = s->downloaded ? c->store : c->font;
    const uint32_t cell = s->elongated ? 20 : 10, columns = width(s);
    if (s->plot_line) {
        c->at++;
        return note(c, 46, place_of(c, c->at - 1));
    }
    if (!is_lp2(s))
        return print_6215(c, glyphs);
    do {
        uint8_t byte = *c->at++;
        if (s->column + cell > columns)
            return note(c, 44, place_of(c, c->at - 1));
        enter_character(s, c->line, glyphs + byte * GLYPH, cell, 1);
    } while (c->at < c->end && prints(*c->at));
    return GO_ON;
}

static void begin_command(struct call *c)
{
    c->s->command = TWIN_ESC;
    c->s->place = place_of(c, c->at - 1);
}

static enum outcome text(struct call *c)
{
    if (prints(*c->at))
        return print(c);
    uint8_t byte = *c->at++;
    switch (byte) {
    case 0x00: case 0x07: case 0x7F:
        return GO_ON;
    case 0x0A: case 0x0B: case 0x0C: case 0x0D:
        return terminate(c, byte);
    case ESC:
        begin_command(c);
        return GO_ON;
    default:
        return note(c, 46, place_of(c, c->at - 1));
    }
}

INLINE bool plot_column(struct twin *s, uint16_t *line, uint8_t value, uint32_t step, uint32_t positions)
{
    if (s->column + step > positions)
        return false;
    line[s->column] |= value;
    s->column += step;
    return true;
}

/* Enters plotted columns up to one that has no room, or a byte that is none, and returns where it stopped. */
INLINE const uint8_t *plot_run(struct twin *s, uint16_t *line, const uint8_t *at, const uint8_t *end,
                               uint32_t step, uint32_t positions)
{
    while (at < end && *at < 0x80 && *at != ESC && plot_column(s, line, *at, step, positions))
        at++;
    return at;
}

APART const uint8_t *plot_run_6215(struct twin *s, uint16_t *line, const uint8_t *at, const uint8_t *end)
{
    return plot_run(s, line, at, end, step(s), POSITIONS_6215);
}

static enum outcome plot(struct call *c)
{
    struct twin *s = c->s;
    if (is_lp2(s))
        c->at = plot_run(s, c->line, c->at, c->end, 1, width(s));
    else
        c->at = plot_run_6215(s, c->line, c->at, c->end);
    if (c->at == c->end)
        return GO_ON;
    uint8_t byte = *c->at++;
    if (byte != ESC)
        return note(c, byte < 0x80 ? 44 : 46, place_of(c, c->at - 1));
    begin_command(c);
    return GO_ON;
}

static bool plot_esc(struct twin *s, uint16_t *line)
{
    if (is_lp2(s))
        return plot_column(s, line, ESC, 1, width(s));
    return plot_column(s, line, ESC, step(s), POSITIONS_6215);
}

static enum outcome plot_escape(struct call *c, uint8_t byte)
{
    c->s->command = TWIN_NONE;
    if (byte == ESC)
        return plot_esc(c->s, c->line) ? GO_ON : fault(c, 44);
    if (byte != 'e')
        return fault(c, 46);
    c->s->plot_mode = 0;
    return GO_ON;
}

static void set_tab(struct twin *s, uint32_t line) { s->tabs[line / 64] |= UINT64_C(1) << line % 64; }

static void clear_tab(struct twin *s, uint32_t line) { s->tabs[line / 64] &= ~(UINT64_C(1) << line % 64); }

static void clear_tabs(struct twin *s) { s->tabs[0] = s->tabs[1] = 0; }

static void clear_tabs_past(struct twin *s, uint32_t lines)
{
    if (lines < 64) {
        s->tabs[0] &= ~(~UINT64_C(1) << lines);
        s->tabs[1] = 0;
    } else {
        s->tabs[1] &= ~(~UINT64_C(1) << (lines - 64));
    }
}

static enum outcome set_pitch(struct call *c, uint8_t compressed)
{
    if (is_lp2(c->s) && !c->s->fresh)
        return fault(c, 46);
    c->s->compressed = compressed;
    return GO_ON;
}

static enum outcome begin_plot(struct call *c)
{
    if (!c->s->fresh)
        return fault(c, 46);
    c->s->fresh = 0;
    c->s->plot_line = 1;
    c->s->plot_mode = 1;
    return GO_ON;
}

static enum outcome begin_bracket(struct call *c)
{
    struct twin *s = c->s;
    if (is_lp2(s))
        return fault(c, 42);
    s->command = TWIN_BRACKET;
    s->semicolons = 0;
    s->number[0] = s->number[1] = s->number[2] = 0;
    return GO_ON;
}

static enum outcome escape(struct call *c, uint8_t byte)
{
    struct twin *s = c->s;
    s->command = TWIN_NONE;
    switch (byte) {
    case '5': set_tab(s, current_line(s)); break;
    case '6': clear_tab(s, current_line(s)); break;
    case 'F': clear_tabs(s); s->command = TWIN_TAB_LIST; break;
    case '<': s->elongated = 1; break;
    case '=': s->elongated = 0; break;
    case 'a': s->underscore = 1; break;
    case 'b': s->underscore = 0; break;
    case '>': return set_pitch(c, 1);
    case '?': return set_pitch(c, 0);
    case 'd': return begin_plot(c);
    case '[': return begin_bracket(c);
    case 'e': break;
    case 'c': s->command = TWIN_RESET; break;
    case 'Y': s->command = TWIN_COUNT_HIGH; break;
    case 'N': s->command = TWIN_SELECT; break;
    case 'O': s->downloaded = 0; break;
    default: return fault(c, 42);
    }
    return GO_ON;
}

static void clear_line(const struct twin *s, uint16_t *line)
{
    if (is_lp2(s))
        memset(line, 0, COLUMNS * sizeof *line);
    else
        memset(line, 0, s->column * sizeof *line);
}

static enum outcome reset(struct call *c, uint8_t byte)
{
    struct twin *s = c->s;
    if (byte != 0)
        return fault(c, 46);
    s->command = TWIN_NONE;
    clear_line(s, c->line);
    memset(c->store, 0, STORE);
    clear_tabs(s);
    s->compressed = s->elongated = s->underscore = s->downloaded = 0;
    fresh_line(s);
    return GO_ON;
}

static enum outcome tab_item(struct call *c, uint8_t byte)
{
    if (byte == 0)
        c->s->command = TWIN_NONE;
    else if (byte <= c->s->lines)
        set_tab(c->s, byte);
    else
        return note(c, 48, place_of(c, c->at - 1));
    return GO_ON;
}

static bool well_formed(const uint8_t *glyph)
{
    if (glyph[0] | glyph[1])
        return false;
    unsigned before = 0;
    for (int k = 1; k < 8; k++) {
        unsigned word = (unsigned)(glyph[2 * k] << 8 | glyph[2 * k + 1]);
        if (word > 511 || word & before)
            return false;
        before = word;
    }
    return true;
}

static enum outcome end_download(struct call *c, uint8_t checksum)
{
    struct twin *s = c->s;
    if ((uint8_t)(s->sum + checksum) != 0)
        return fault(c, 45);
    if (s->address < 2048 || s->address + s->count > 4096 || s->count == 0 ||
        s->count % GLYPH != 0 || s->address % GLYPH != 0)
        return fault(c, 46);
    for (uint32_t k = 0; k < s->count; k += GLYPH)
        if (!well_formed(c->staging + k))
            return fault(c, 80);
    memcpy(c->store + (s->address - 2048), c->staging, s->count);
    s->command = TWIN_NONE;
    return GO_ON;
}

/* Takes payload up to its end or the piece's, else the checksum. */
static enum outcome payload(struct call *c)
{
    struct twin *s = c->s;
    if (s->taken == s->count)
        return end_download(c, *c->at++);
    size_t offered = (size_t)(c->end - c->at), wanted = s->count - s->taken;
    size_t n = offered < wanted ? offered : wanted;
    uint8_t sum = s->sum;
    for (size_t k = 0; k < n; k++)
        sum = (uint8_t)(sum + c->at[k]);
    if (s->taken < STORE)
        memcpy(c->staging + s->taken, c->at, n < STORE - s->taken ? n : STORE - s->taken);
    s->sum = sum;
    s->taken += (uint32_t)n;
    c->at += n;
    return GO_ON;
}

static enum outcome select_glyphs(struct call *c, uint8_t byte)
{
    if (c->s->command != TWIN_SELECT_04 || byte != 0)
        return fault(c, 46);
    c->s->command = TWIN_NONE;
    c->s->downloaded = 1;
    return GO_ON;
}

static void begin_download(struct twin *s, uint8_t count_high)
{
    s->command = TWIN_COUNT_LOW;
    s->count = (uint32_t)count_high << 8;
    s->taken = 0;
    s->sum = 0;
}

/* ESC [ with no semicolon and one number: that number. Else a number that no command takes. */
static uint32_t only_number(const struct twin *s)
{
    return s->semicolons == 0 && s->number[0] != 0 ? s->number[0] - 1u : NUMBER_MAX;
}

static uint32_t number_or(const struct twin *s, int k, uint32_t setting)
{
    return s->number[k] != 0 ? s->number[k] - 1u : setting;
}

/* 0, 2, 4 and 6: bit 1 is set for compressed, bit 2 for not elongated. */
static enum outcome set_style(struct call *c)
{
    uint32_t style = only_number(c->s);
    if (style > 6 || style % 2 != 0)
        return fault(c, 46);
    c->s->compressed = (style & 2) != 0;
    c->s->elongated = (style & 4) == 0;
    return GO_ON;
}

static bool at_form_start(const struct twin *s) { return s->fresh && s->row == first_row(s); }

static enum outcome set_spacing(struct call *c)
{
    uint32_t spacing = only_number(c->s);
    if (spacing != 1 && spacing != 2)
        return fault(c, 46);
    if (!at_form_start(c->s))
        return fault(c, 43);
    c->s->spacing = spacing == 1 ? 6 : 8;
    return next_form(c->s);
}

static enum outcome set_form(struct call *c)
{
    struct twin *s = c->s;
    uint32_t lines = number_or(s, 0, s->lines), top = number_or(s, 1, s->top), bottom = number_or(s, 2, s->bottom);
    if (s->semicolons > 2 || top < 1 || top > bottom || bottom > lines || lines > LINES_MAX_6215 || !at_form_start(s))
        return fault(c, 43);
    s->lines = lines;
    s->top = top;
    s->bottom = bottom;
    clear_tabs_past(s, lines);
    return next_form(s);
}

static enum outcome end_bracket(struct call *c, uint8_t byte)
{
    c->s->command = TWIN_NONE;
    switch (byte) {
    case 'w': return set_style(c);
    case 'r': return set_form(c);
    case 'z': return set_spacing(c);
    default: return fault(c, 42);
    }
}

static void add_digit(struct twin *s, uint32_t digit)
{
    if (s->semicolons > 2)
        return;
    uint32_t number = number_or(s, s->semicolons, 0) * 10 + digit;
    s->number[s->semicolons] = (uint16_t)((number < NUMBER_MAX ? number : NUMBER_MAX) + 1);
}

/* Takes digits and semicolons up to the piece's end, or through the byte that ends the command. */
static enum outcome bracket(struct call *c)
{
    struct twin *s = c->s;
    while (c->at < c->end) {
        uint8_t byte = *c->at++;
        if (byte >= '0' && byte <= '9')
            add_digit(s, byte - (uint32_t)'0');
        else if (byte != ';')
            return end_bracket(c, byte);
        else if (s->semicolons < 3)
            s->semicolons++;
    }
    return GO_ON;
}

static enum outcome command(struct call *c)
{
    struct twin *s = c->s;
    if (s->command == TWIN_PAYLOAD)
        return payload(c);
    if (s->command == TWIN_BRACKET)
        return bracket(c);
    uint8_t byte = *c->at++;
    switch (s->command) {
    case TWIN_ESC: return s->plot_mode ? plot_escape(c, byte) : escape(c, byte);
    case TWIN_TAB_LIST: return tab_item(c, byte);
    case TWIN_RESET: return reset(c, byte);
    case TWIN_SELECT: s->command = byte == 0x04 ? TWIN_SELECT_04 : TWIN_SELECT_OTHER; break;
    case TWIN_SELECT_04:
    case TWIN_SELECT_OTHER: return select_glyphs(c, byte);
    case TWIN_COUNT_HIGH: begin_download(s, byte); break;
    case TWIN_COUNT_LOW: s->count |= byte; s->command = TWIN_ADDRESS_HIGH; break;
    case TWIN_ADDRESS_HIGH: s->address = (uint32_t)byte << 8; s->command = TWIN_ADDRESS_LOW; break;
    case TWIN_ADDRESS_LOW: s->address |= byte; s->command = TWIN_PAYLOAD; break;
    }
    return GO_ON;
}

uint64_t twin_open(uint64_t model, uint64_t lines, uint64_t spacing, struct twin *state,
                   uint8_t *page, size_t page_len, uint16_t *line, size_t line_len,
                   uint8_t *staging, size_t staging_len, uint8_t *store, size_t store_len,
                   const uint8_t *font, size_t font_len)
{
    (void)font;
    const struct model *chosen = model == TWIN_6215 ? &model_6215 : &model_lp2;
    struct twin opened = { .model = model == TWIN_6215 ? TWIN_6215 : TWIN_LP2, .top = 1, .fresh = 1 };
    *state = opened; /* shut, with no lines, until nothing is refused */
    if (model >= TWIN_MODELS)
        return 23;
    if (lines < 1 || lines > chosen->lines_max)
        return 18;
    if (spacing != 6 && spacing != 8)
        return 19;
    opened.lines = opened.bottom = (uint32_t)lines;
    opened.spacing = (uint32_t)spacing;
    uint64_t refusal = wrong_length(&opened, chosen, page_len, line_len, staging_len, store_len, font_len);
    if (refusal)
        return refusal;
    memset(page, 0, page_len);
    memset(line, 0, line_len * sizeof *line);
    memset(staging, 0, staging_len);
    memset(store, 0, store_len);
    *state = opened;
    return 0;
}

uint64_t twin_feed(struct twin *state,
                   uint8_t *page, size_t page_len, uint16_t *line, size_t line_len,
                   uint8_t *staging, size_t staging_len, uint8_t *store, size_t store_len,
                   const uint8_t *font, size_t font_len,
                   const uint8_t *piece, size_t piece_len, uint64_t report[4])
{
    uint64_t refusal = 10;
    if (is_lp2(state) && sound_lp2(state))
        refusal = wrong_length(state, &model_lp2, page_len, line_len, staging_len, store_len, font_len);
    else if (sound_6215(state))
        refusal = wrong_length(state, &model_6215, page_len, line_len, staging_len, store_len, font_len);
    if (refusal)
        return refusal;
    const size_t room = JOB_LIMIT - state->length;
    const size_t length = piece_len < room ? piece_len : room;
    struct call c = { state, page, line, staging, store, font, piece, piece + length,
                      piece, state->length, 0, 0 };
    enum outcome outcome = GO_ON;
    while (outcome == GO_ON && c.at < c.end) {
        if (state->command != TWIN_NONE)
            outcome = command(&c);
        else
            outcome = state->plot_mode ? plot(&c) : text(&c);
    }
    state->length += (uint32_t)(c.at - piece);
    report[0] = (uint64_t)(c.at - piece);
    report[1] = c.note;
    report[2] = c.note_place;
    report[3] = 0;
    return outcome == GO_ON && length < piece_len ? 3 : (uint64_t)outcome;
}

uint64_t twin_close(const struct twin *state, uint64_t report[4])
{
    if (!sound(state))
        return 10;
    bool unfinished = state->command != TWIN_NONE;
    report[0] = report[1] = report[3] = 0;
    report[2] = unfinished ? state->place : 0;
    if (unfinished)
        return 2;
    return state->fresh ? 0 : 1;
}

uint64_t twin_page_due(const struct twin *state)
{
    return sound(state) ? page_bytes(state, is_lp2(state) ? &model_lp2 : &model_6215) : 0;
}
