/*
 * clocktoad: a reader of the bytes that a host sends to a DASHER LP2 printer, or to the newer 6215.
 *
 * It follows document 01 and the requests of document 02 that docs/changes has notes on.
 * docs/CALLING.md shows the protocol and a whole program.
 *
 * The library keeps no memory of its own: all it reads or writes is lent by the
 * caller, each slice as a pointer and a count of elements. For every call:
 *   - no pointer is null, not even that of a slice of no elements;
 *   - every slice is readable, and writable unless const, for its whole length;
 *   - no two slices overlap.
 */
#ifndef CLOCKTOAD_H
#define CLOCKTOAD_H

#include <stddef.h>
#include <stdint.h>

#ifdef __cplusplus
extern "C" {
#endif

/* The models. A job's model is chosen at opening and kept in its state. */
enum clocktoad_model {
    CLOCKTOAD_LP2  = 0,
    CLOCKTOAD_6215 = 1
};

/* Lengths of the lent slices, in elements. */
#define CLOCKTOAD_STATE_WORDS       23   /* uint64_t */
#define CLOCKTOAD_REPORT_WORDS      4    /* uint64_t */
#define CLOCKTOAD_LP2_LINE_NUMBERS  2200 /* uint16_t, one a column */
#define CLOCKTOAD_6215_LINE_NUMBERS 6800 /* uint16_t, one a grid position */
#define CLOCKTOAD_STAGING_BYTES     2048
#define CLOCKTOAD_STORE_BYTES       2048
#define CLOCKTOAD_FONT_BYTES        2048

/* The form. A row is read from left to right, the leftmost position in a byte's highest bit. */
#define CLOCKTOAD_LINE_ROWS(spacing) ((spacing) == 6 ? 12 : 9)
#define CLOCKTOAD_LP2_ROW_POSITIONS  6600
#define CLOCKTOAD_6215_ROW_POSITIONS 6800
#define CLOCKTOAD_LP2_ROW_BYTES      825
#define CLOCKTOAD_6215_ROW_BYTES     850
#define CLOCKTOAD_LP2_LINES_MAX      99
#define CLOCKTOAD_6215_LINES_MAX     112
/* For lines 1 to the model's most at spacing 6 or 8 only; clocktoad_page_bytes takes any numbers. */
#define CLOCKTOAD_LP2_PAGE_BYTES(lines, spacing) \
    ((size_t)(lines) * CLOCKTOAD_LINE_ROWS(spacing) * CLOCKTOAD_LP2_ROW_BYTES)
#define CLOCKTOAD_6215_PAGE_BYTES(lines, spacing) \
    ((size_t)(lines) * CLOCKTOAD_LINE_ROWS(spacing) * CLOCKTOAD_6215_ROW_BYTES)
#define CLOCKTOAD_LP2_PAGE_BYTES_MAX  CLOCKTOAD_LP2_PAGE_BYTES(CLOCKTOAD_LP2_LINES_MAX, 6)
#define CLOCKTOAD_6215_PAGE_BYTES_MAX CLOCKTOAD_6215_PAGE_BYTES(CLOCKTOAD_6215_LINES_MAX, 6)

/* The most bytes that one job can have. */
#define CLOCKTOAD_JOB_LIMIT UINT64_C(4294967295)

/*
 * Answers of opening and feeding. Closing uses CLOCKTOAD_UNSOUND and CLOCKTOAD_REPORT_LENGTH too.
 * Document 02 retired 17: no call answers it, and it gets no other meaning.
 */
enum clocktoad_answer {
    CLOCKTOAD_OPENED         = 0,  /* opening: the job is open */
    CLOCKTOAD_USED_UP        = 0,  /* feeding: every byte of the piece is taken */
    CLOCKTOAD_FORM_FINISHED  = 1,  /* the page is complete; lend a blank one of the size due, offer the rest */
    CLOCKTOAD_NOTE           = 2,  /* the report has the note's number and place; offer the rest */
    CLOCKTOAD_JOB_FULL       = 3,  /* the job has CLOCKTOAD_JOB_LIMIT bytes; the rest can't be taken */
    CLOCKTOAD_UNSOUND        = 10, /* the words lent as state hold no sound state, or are too few or too many to be one */
    CLOCKTOAD_BAD_PAGE       = 11, /* wrong length of the page, */
    CLOCKTOAD_BAD_LINE       = 12, /* of the line store, */
    CLOCKTOAD_BAD_STAGING    = 13, /* of the staging, */
    CLOCKTOAD_BAD_STORE      = 14, /* of the download store, */
    CLOCKTOAD_BAD_FONT       = 15, /* of the font */
    CLOCKTOAD_BAD_LINES      = 18, /* opening: lines not 1 to 99, on a 6215 not 1 to 112 */
    CLOCKTOAD_BAD_SPACING    = 19, /* opening: spacing not 6 or 8 */
    CLOCKTOAD_STATE_LENGTH   = 21, /* house, opening: state_len is not CLOCKTOAD_STATE_WORDS */
    CLOCKTOAD_REPORT_LENGTH  = 22, /* house, feeding and closing: report_len is not CLOCKTOAD_REPORT_WORDS */
    CLOCKTOAD_BAD_MODEL      = 23  /* house, opening: no model has that number */
};

/* Answers of closing, with CLOCKTOAD_UNSOUND and CLOCKTOAD_REPORT_LENGTH. */
enum clocktoad_closing {
    CLOCKTOAD_CLEAN              = 0, /* nothing is left over */
    CLOCKTOAD_LINE_UNPRINTED     = 1, /* the last line had no terminator */
    CLOCKTOAD_COMMAND_UNFINISHED = 2  /* the report has the place of the command's first byte */
};

/* Note numbers. Document 01 gives no note 47, and 43 is the 6215's alone. */
enum clocktoad_note {
    CLOCKTOAD_NOTE_UNKNOWN_COMMAND = 42, /* ESC, or ESC [ with its numbers, and a byte that names no command */
    CLOCKTOAD_NOTE_FORM            = 43, /* a form that can't be set, or form or spacing set out of place */
    CLOCKTOAD_NOTE_LINE_FULL       = 44, /* a character or plot column that the line has no room for */
    CLOCKTOAD_NOTE_CHECKSUM        = 45, /* a download whose payload and checksum don't sum to 0 */
    CLOCKTOAD_NOTE_INVALID         = 46, /* a byte, command, operand or download header not allowed there */
    CLOCKTOAD_NOTE_TAB_ITEM        = 48, /* an item of a tab list that is no line of the form */
    CLOCKTOAD_NOTE_GLYPH           = 80  /* house: a download with an ill-formed glyph */
};

/* Words of the report. */
enum clocktoad_report {
    CLOCKTOAD_REPORT_TAKEN  = 0, /* feeding: bytes taken of the piece */
    CLOCKTOAD_REPORT_NUMBER = 1, /* feeding: the note's number, 0 unless the answer is CLOCKTOAD_NOTE */
    CLOCKTOAD_REPORT_PLACE  = 2, /* the note's or the unfinished command's place in the job, else 0 */
    CLOCKTOAD_REPORT_ZERO   = 3  /* always 0 */
};

/*
 * Opens a job of a model (an enum clocktoad_model) on a form of `lines` lines (1 to 99, on a 6215
 * to 112) at `spacing` lines an inch (6 or 8).
 * Tested in this order: 23, 18, 19, 11 to 15, 21; else 0.
 * On 0 the page, line store, staging and download store are zeroed and the state is that of a
 * job of no bytes. On 18, 19 and 11 to 15 a state of the right length becomes the model's shut
 * state, on 23 the LP2's, which feeding and closing answer with 10, and nothing else is written.
 * On 21 nothing is written. A state of the wrong length is not written on any answer.
 * The font is never written; it may change between calls.
 */
uint64_t clocktoad_open(uint64_t model, uint64_t lines, uint64_t spacing,
                        uint64_t *state, size_t state_len,
                        uint8_t *page, size_t page_len,
                        uint16_t *line, size_t line_len,
                        uint8_t *staging, size_t staging_len,
                        uint8_t *store, size_t store_len,
                        const uint8_t *font, size_t font_len);

/*
 * Reads the next bytes of the job, up to the first form finished, the first note, or the end of
 * the piece. The caller offers the bytes from report[0] on again, before any others.
 * Tested in this order: 10, also for a state of the wrong length, 11 to 15, 22; none of these
 * writes anything.
 * Else 0, 1, 2 or 3, and the report is written. A finished page is not cleared.
 * State, page, line store, staging and download store must hold what the call before left in them,
 * but for the page after answer 1: a host may have changed the form of a 6215, and then the page
 * that is due may have another length, which clocktoad_page_due tells.
 */
uint64_t clocktoad_feed(uint64_t *state, size_t state_len,
                        uint8_t *page, size_t page_len,
                        uint16_t *line, size_t line_len,
                        uint8_t *staging, size_t staging_len,
                        uint8_t *store, size_t store_len,
                        const uint8_t *font, size_t font_len,
                        const uint8_t *piece, size_t piece_len,
                        uint64_t *report, size_t report_len);

/*
 * Tells how the job would end here: an enum clocktoad_closing, and the report is written.
 * Tested in this order: 10, also for a state of the wrong length, 22; neither writes anything.
 * The state is only read.
 */
uint64_t clocktoad_close(const uint64_t *state, size_t state_len,
                         uint64_t *report, size_t report_len);

uint64_t clocktoad_state_words(void);   /* CLOCKTOAD_STATE_WORDS */
uint64_t clocktoad_report_words(void);  /* CLOCKTOAD_REPORT_WORDS */
uint64_t clocktoad_staging_bytes(void); /* CLOCKTOAD_STAGING_BYTES */
uint64_t clocktoad_store_bytes(void);   /* CLOCKTOAD_STORE_BYTES */
uint64_t clocktoad_font_bytes(void);    /* CLOCKTOAD_FONT_BYTES */

/*
 * Bytes of the page that the next feeding of this state takes; 0 where the words hold no sound
 * state, or are too few or too many to be one. The state is only read.
 */
uint64_t clocktoad_page_due(const uint64_t *state, size_t state_len);

/* Numbers of the model's line store; 0 where there is no such model. */
uint64_t clocktoad_line_numbers(uint64_t model);

/* Bytes of a page of that form; 0 where there is no such model, or it has no form of these lines and spacing. */
uint64_t clocktoad_page_bytes(uint64_t model, uint64_t lines, uint64_t spacing);

#ifdef __cplusplus
}
#endif

#endif
