/* See pralakuon_record.h. */
#include "pralakuon_record.h"

#include <string.h>

enum {
    TEXTS = 5,       /* file, module, timestamp, message, and with heads the serial */
    COUNT_BYTES = 2, /* of a sheet: how many bodies it has */
    LENGTH_BYTES = 4 /* of a sheet: how long one body is */
};

struct pralakuon_text pralakuon_text_of(const char *string)
{
    struct pralakuon_text text;

    text.bytes = (const uint8_t *)string;
    text.length = string ? strlen(string) : 0;
    return text;
}

/* A number, little-endian, at `out`. Gives the place behind it. */
static uint8_t *put_number(uint8_t *out, size_t number, int bytes)
{
    for (; bytes > 0; bytes--, number >>= 8)
        *out++ = (uint8_t)(number & 255u);
    return out;
}

/* A null pointer must not reach memcpy, not even with length 0. */
static uint8_t *put_text(uint8_t *out, struct pralakuon_text text)
{
    if (text.length > 0)
        memcpy(out, text.bytes, text.length);
    return out + text.length;
}

/* How many texts a record has by these settings. */
static int texts_by(uint8_t settings)
{
    return settings & PRALAKUON_HEADS ? TEXTS : TEXTS - 1;
}

/* A text that is empty where it is absent, and cut where it is longer. */
static struct pralakuon_text cut(struct pralakuon_text text, size_t longest)
{
    if (!text.bytes)
        text.length = 0;
    if (text.length > longest)
        text.length = longest;
    return text;
}

/* The texts of a record in the order of its layout, absent ones empty, longer ones cut at `longest`, the head's at
 * `longest_head`. Gives the size of its layout by these settings, which cannot overflow where both are the size of a sheet
 * at most. */
static size_t gather(const struct pralakuon_record *record, uint8_t settings, size_t longest, size_t longest_head,
                     struct pralakuon_text texts[TEXTS])
{
    size_t size = settings & PRALAKUON_HEADS ? PRALAKUON_RECORD_HEAD_BYTES_WITH_HEADS : PRALAKUON_RECORD_HEAD_BYTES;
    int i;

    texts[0] = cut(record->file, longest);
    texts[1] = cut(record->module, longest);
    texts[2] = cut(record->timestamp, longest);
    texts[3] = cut(record->message, longest);
    texts[4] = cut(record->head, longest_head);
    for (i = 0; i < texts_by(settings); i++)
        size += texts[i].length;
    return size;
}

static uint8_t present(const struct pralakuon_record *record)
{
    return (uint8_t)((record->file.bytes ? PRALAKUON_PRESENT_FILE : 0) |
                     (record->has_line ? PRALAKUON_PRESENT_LINE : 0) |
                     (record->module.bytes ? PRALAKUON_PRESENT_MODULE : 0) |
                     (record->head.bytes ? PRALAKUON_PRESENT_HEAD : 0));
}

static void lay_out(const struct pralakuon_record *record, const struct pralakuon_text *texts, int count, uint8_t *out)
{
    int i;

    *out++ = record->source;
    *out++ = record->level;
    *out++ = present(record);
    out = put_number(out, record->has_line ? record->line : 0, 4);
    for (i = 0; i < count; i++)
        out = put_number(out, texts[i].length, 2);
    for (i = 0; i < count; i++)
        out = put_text(out, texts[i]);
}

size_t pralakuon_record_put(const struct pralakuon_record *record, uint8_t settings, uint8_t *out, size_t out_len)
{
    struct pralakuon_text texts[TEXTS];
    size_t size = gather(record, settings, PRALAKUON_FIELD_BYTES_MAX + 1, PRALAKUON_SERIAL_BYTES_MAX + 1, texts);

    if (size > out_len)
        return 0;
    lay_out(record, texts, texts_by(settings), out);
    return size;
}

enum pralakuon_sheet_answer pralakuon_sheet_begin(struct pralakuon_sheet *sheet, uint8_t settings,
                                                  struct pralakuon_text template_, uint8_t *out, size_t out_len)
{
    const size_t head = COUNT_BYTES + LENGTH_BYTES + 1;
    size_t room = out_len < PRALAKUON_SHEET_BYTES_MAX ? out_len : PRALAKUON_SHEET_BYTES_MAX;
    uint8_t *end = out;

    /* A sheet that has no room at all, until one is begun. */
    sheet->bytes = out;
    sheet->room = sheet->size = sheet->empty = sheet->records = 0;
    sheet->settings = settings;
    if (settings & ~(PRALAKUON_COLOUR | PRALAKUON_STRAIGHT | PRALAKUON_STRICT | PRALAKUON_HEADS | PRALAKUON_PLACES))
        return PRALAKUON_SHEET_UNKNOWN_SETTINGS;
    if (!template_.bytes)
        template_.length = 0;
    if (room < head || template_.length > room - head)
        return PRALAKUON_SHEET_TOO_SMALL;
    end = put_number(end, 1, COUNT_BYTES);
    end = put_number(end, 1 + template_.length, LENGTH_BYTES);
    *end++ = settings;
    put_text(end, template_);
    sheet->room = room;
    sheet->size = sheet->empty = head + template_.length;
    return PRALAKUON_SHEET_WRITTEN;
}

enum pralakuon_sheet_answer pralakuon_sheet_push(struct pralakuon_sheet *sheet, const struct pralakuon_record *record)
{
    struct pralakuon_text texts[TEXTS];
    size_t size = gather(record, sheet->settings, PRALAKUON_SHEET_BYTES_MAX, PRALAKUON_SHEET_BYTES_MAX, texts);
    size_t bodies = COUNT_BYTES + LENGTH_BYTES * (1 + sheet->records); /* where they begin */

    if (size + LENGTH_BYTES > sheet->room - sheet->empty)
        return PRALAKUON_SHEET_TOO_SMALL;
    if (size + LENGTH_BYTES > sheet->room - sheet->size)
        return PRALAKUON_SHEET_FULL;
    memmove(sheet->bytes + bodies + LENGTH_BYTES, sheet->bytes + bodies, sheet->size - bodies);
    put_number(sheet->bytes + bodies, size, LENGTH_BYTES);
    lay_out(record, texts, texts_by(sheet->settings), sheet->bytes + sheet->size + LENGTH_BYTES);
    sheet->size += LENGTH_BYTES + size;
    sheet->records++;
    put_number(sheet->bytes, 1 + sheet->records, COUNT_BYTES);
    return PRALAKUON_SHEET_WRITTEN;
}

const char *pralakuon_refusal_text(unsigned refusal)
{
    static const char unknown[] = "an unknown refusal";
    static const char *const texts[] = {
        "no refusal",
        "the template is over 1,024 bytes",
        "the template is not UTF-8",
        "the template cannot be read",
        "the template nowhere names the message, {s}",
        "the template has more than 64 segments",
        "the template has braces more than 8 deep",
        "the template asks for a width above 512",
        "the template has a name of more than 255 f",
        "the template ends in a backslash where a closing brace is searched for",
        unknown, /* 10 is no longer given */
        "a text of the record is over 4,096 bytes, or its head over 32",
        "a text of the record is not UTF-8",
        "the line is longer than the buffer",
        "the record has an unknown number or contradicts itself",
        "a settings bit is unknown, or a record or sheet is not laid out as one",
        unknown, /* 16 is not given yet */
        "the template drops bytes or loses a parameter",
    };

    return refusal < sizeof texts / sizeof *texts ? texts[refusal] : unknown;
}

const char *pralakuon_level_name(unsigned level)
{
    static const char *const names[] = {"no level", "ERROR", "WARN", "INFO", "DEBUG", "TRACE"};

    return level < sizeof names / sizeof *names ? names[level] : "an unknown level";
}
