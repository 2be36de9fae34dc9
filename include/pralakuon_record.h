/* Records laid out and session sheets written, for pralakuon.h; names of levels and texts of refusals.
 *
 * Plain C99 that is C++11, too, in pralakuon_record.c: tested, not proved. It allocates nothing, keeps nothing, writes
 * only into what is lent, and needs memcpy, memmove and strlen. What is lent to be written must overlap nothing else.
 */
#ifndef PRALAKUON_RECORD_H
#define PRALAKUON_RECORD_H

#include "pralakuon.h"

#ifdef __cplusplus
extern "C" {
#endif

/* A text, which need not end with a null byte nor be UTF-8. With a null pointer it is absent, whatever its length. */
struct pralakuon_text {
    const uint8_t *bytes;
    size_t length;
};

/* The text of a C string without its null byte; null gives an absent text. */
struct pralakuon_text pralakuon_text_of(const char *string);

/* What is known of a record. All zeros are a print with an empty message. Nothing is checked here: what is wrong with a
 * record, the line call says. */
struct pralakuon_record {
    uint8_t source; /* enum pralakuon_source */
    uint8_t level;  /* enum pralakuon_level */
    uint8_t has_line;
    uint32_t line; /* counts only where has_line is not 0 */
    struct pralakuon_text file;
    struct pralakuon_text module;
    struct pralakuon_text timestamp; /* an absent one and an empty one are the same; so it is for the message */
    struct pralakuon_text message;
    struct pralakuon_text head; /* the serial of the head that measured it; needs settings with PRALAKUON_HEADS */
};

/* The room that every record has enough of, by any settings. */
#define PRALAKUON_RECORD_ROOM \
    (PRALAKUON_RECORD_HEAD_BYTES_WITH_HEADS + 4 * (PRALAKUON_FIELD_BYTES_MAX + 1) + PRALAKUON_SERIAL_BYTES_MAX + 1)

/* Lays a record out for a line call by the same settings, at the front of `out`. Value: its size, or 0 where `out` is too
 * short, and then nothing is written. A line call refuses a record of 0 bytes (15), so the value can be handed on
 * unchecked.
 *
 * Of the settings only PRALAKUON_HEADS counts: with it the head's serial is laid out behind the other texts. Without it a
 * head is only marked in the mask, so that the line call refuses the record (14) and no head is lost without a word.
 *
 * The layout has 16 bits for a text's length. A text over 4,096 bytes is cut at 4,097 and a head's serial over 32 bytes at
 * 33: the line call refuses it (11) as it would refuse the whole. */
size_t pralakuon_record_put(const struct pralakuon_record *record, uint8_t settings, uint8_t *out, size_t out_len);

/* A sheet that is being written. After each call `bytes` holds, in its first `size` bytes, a whole sheet. */
struct pralakuon_sheet {
    uint8_t *bytes;
    size_t room;  /* the bytes that were lent, 65,536 at most */
    size_t size;  /* 0 where nothing was begun */
    size_t empty; /* the size that it had without records */
    size_t records;
    uint8_t settings; /* those that it was begun with */
};

enum pralakuon_sheet_answer {
    PRALAKUON_SHEET_WRITTEN = 0,
    PRALAKUON_SHEET_FULL = 1,            /* no longer fits: begin another sheet and put it there */
    PRALAKUON_SHEET_TOO_SMALL = 2,       /* does not fit into an empty sheet with this room and template either */
    PRALAKUON_SHEET_UNKNOWN_SETTINGS = 3 /* a bit that is not one of enum pralakuon_settings */
};

/* Begins a sheet without records in `out`. Any template can be written, a refused one, too. With PRALAKUON_HEADS in the
 * settings all its records are laid out with heads, also those that have none. With any answer but 0 nothing is written,
 * and the sheet takes no records. */
enum pralakuon_sheet_answer pralakuon_sheet_begin(struct pralakuon_sheet *sheet, uint8_t settings,
                                                  struct pralakuon_text template_, uint8_t *out, size_t out_len);

/* Adds a record. Any can be written, a refused one, too; its texts stay whole. A head in a sheet without PRALAKUON_HEADS
 * is only marked, and the record's line is `! 14`. With any answer but 0 the sheet is as it was. The sheet's bodies are
 * moved by four bytes for each record. */
enum pralakuon_sheet_answer pralakuon_sheet_push(struct pralakuon_sheet *sheet, const struct pralakuon_record *record);

/* What a refusal means, in a few words. Never null: 0 and unknown numbers have a text, too. */
const char *pralakuon_refusal_text(unsigned refusal);

/* The name of a level, as {L} shows it. Never null: 0 and unknown numbers have a text, too. */
const char *pralakuon_level_name(unsigned level);

#ifdef __cplusplus
}
#endif

#endif
