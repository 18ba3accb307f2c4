/*
 * A twin of the library in plain C, without proofs, to measure it against: an LP2 and a 6215.
 * Same rules (those that include/clocktoad.h names), same lent memory, same answers and report.
 * The state is a struct, and the report is always four words, so numbers 21 and 22 don't arise.
 * Of a 6215's line store only the part before the current position is struck and cleared: the
 * rest is zeros where the store holds what the call before left in it, as the header asks.
 */
#ifndef TWIN_H
#define TWIN_H

#include <stddef.h>
#include <stdint.h>

struct twin {
    uint64_t tabs[2];   /* line n is bit n % 64 of word n / 64 */
    uint32_t lines;     /* 0 in the shut state */
    uint32_t spacing;
    uint32_t length;    /* bytes of the job taken */
    uint32_t top;       /* the margins; 1 and lines on an LP2 */
    uint32_t bottom;
    uint32_t row;
    uint32_t column;    /* on a 6215 a grid position */
    uint32_t place;     /* of the begun command's first byte */
    uint32_t count;     /* of a download, as its header gives it */
    uint32_t address;
    uint32_t taken;     /* payload bytes so far */
    uint8_t sum;        /* of those, modulo 256 */
    uint8_t semicolons; /* of ESC [; 3 also for more */
    uint16_t number[3]; /* of ESC [, each plus 1; 0 where it is omitted */
    uint8_t model;      /* enum twin_model */
    uint8_t command;    /* enum twin_command */
    uint8_t compressed, elongated, underscore, downloaded;
    uint8_t fresh, plot_line, plot_mode;
};

/* The header's numbers. */
enum twin_model {
    TWIN_LP2,
    TWIN_6215,
    TWIN_MODELS
};

enum twin_command {
    TWIN_NONE,
    TWIN_ESC,
    TWIN_TAB_LIST,     /* after ESC F */
    TWIN_RESET,        /* after ESC c */
    TWIN_SELECT,       /* after ESC N */
    TWIN_SELECT_04,    /* after ESC N 04 */
    TWIN_SELECT_OTHER, /* after ESC N and another byte */
    TWIN_COUNT_HIGH,   /* after ESC Y, and so on */
    TWIN_COUNT_LOW,
    TWIN_ADDRESS_HIGH,
    TWIN_ADDRESS_LOW,
    TWIN_PAYLOAD,      /* the checksum too, once taken == count */
    TWIN_BRACKET,      /* after ESC [, on a 6215 alone */
    TWIN_COMMANDS
};

uint64_t twin_open(uint64_t model, uint64_t lines, uint64_t spacing, struct twin *state,
                   uint8_t *page, size_t page_len, uint16_t *line, size_t line_len,
                   uint8_t *staging, size_t staging_len, uint8_t *store, size_t store_len,
                   const uint8_t *font, size_t font_len);

uint64_t twin_feed(struct twin *state,
                   uint8_t *page, size_t page_len, uint16_t *line, size_t line_len,
                   uint8_t *staging, size_t staging_len, uint8_t *store, size_t store_len,
                   const uint8_t *font, size_t font_len,
                   const uint8_t *piece, size_t piece_len, uint64_t report[4]);

uint64_t twin_close(const struct twin *state, uint64_t report[4]);

/* Bytes of the page that the next feeding takes, 0 where the state is unsound. */
uint64_t twin_page_due(const struct twin *state);

#endif
