/* Tests pralakuon_record.h at its edges. With the argument `copy` it reads a session sheet, takes it apart, and prints
 * what the pair writes of the same records; with `texts` it prints the texts of refusals and the names of levels. */
#include "pralakuon_record.h"

#include "check.h"

enum {
    PLAIN = PRALAKUON_PLAIN,
    HEADS = PRALAKUON_HEADS,
    FIELD = PRALAKUON_FIELD_BYTES_MAX,
    SERIAL = PRALAKUON_SERIAL_BYTES_MAX,
    SHEET = PRALAKUON_SHEET_BYTES_MAX
};

/* A text longer than any that can be laid out. */
static uint8_t xs[70000];

static struct pralakuon_text of_length(size_t length)
{
    struct pralakuon_text text;

    text.bytes = xs;
    text.length = length;
    return text;
}

static struct pralakuon_record nothing_known(void)
{
    struct pralakuon_record record;

    memset(&record, 0, sizeof record);
    return record;
}

static struct pralakuon_record of_message(size_t length)
{
    struct pralakuon_record record = nothing_known();

    record.level = PRALAKUON_LEVEL_INFO;
    record.message = of_length(length);
    return record;
}

static size_t head_bytes(uint8_t settings)
{
    return settings & HEADS ? PRALAKUON_RECORD_HEAD_BYTES_WITH_HEADS : PRALAKUON_RECORD_HEAD_BYTES;
}

static size_t texts_by(uint8_t settings)
{
    return settings & HEADS ? 5 : 4;
}

/* A text of a record by its place in the layout. */
static struct pralakuon_text *text_at(struct pralakuon_record *record, size_t place)
{
    struct pralakuon_text *texts[5];

    texts[0] = &record->file;
    texts[1] = &record->module;
    texts[2] = &record->timestamp;
    texts[3] = &record->message;
    texts[4] = &record->head;
    return texts[place];
}

/* Its size, which is the same in every room that is large enough; in one that is not, nothing is written. */
static size_t size_of(const struct pralakuon_record *record, uint8_t settings)
{
    uint8_t *out = painted(PRALAKUON_RECORD_ROOM, PAINT);
    size_t size = pralakuon_record_put(record, settings, out, PRALAKUON_RECORD_ROOM), less;
    uint8_t *exact = painted(size, PAINT);

    CHECK(size >= head_bytes(settings) && size <= PRALAKUON_RECORD_ROOM);
    CHECK(all_are(out + size, PRALAKUON_RECORD_ROOM - size, PAINT));
    for (less = 1; less <= size; less += 1 + less / 2)
        CHECK(pralakuon_record_put(record, settings, exact, size - less) == 0 && all_are(exact, size, PAINT));
    CHECK(pralakuon_record_put(record, settings, NULL, 0) == 0);
    CHECK(pralakuon_record_put(record, settings, exact, size) == size && memcmp(exact, out, size) == 0);
    free(out);
    free(exact);
    return size;
}

/* Of the settings only the one bit counts. */
static int lies_as(const struct pralakuon_record *record, uint8_t settings, const char *bytes, size_t size)
{
    uint8_t out[128];

    CHECK(size_of(record, settings) == size && size_of(record, (uint8_t)(settings | ~HEADS)) == size);
    return pralakuon_record_put(record, settings, out, sizeof out) == size && memcmp(out, bytes, size) == 0;
}

static void texts(void)
{
    CHECK(pralakuon_text_of(NULL).bytes == NULL && pralakuon_text_of(NULL).length == 0);
    CHECK(pralakuon_text_of("").bytes != NULL && pralakuon_text_of("").length == 0);
    CHECK(pralakuon_text_of("abc").length == 3 && memcmp(pralakuon_text_of("abc").bytes, "abc", 3) == 0);
}

static void layouts(void)
{
    struct pralakuon_record record = nothing_known();

    CHECK(lies_as(&record, PLAIN, "\0\0\0\0\0\0\0\0\0\0\0\0\0\0\0", 15));
    CHECK(lies_as(&record, HEADS, "\0\0\0\0\0\0\0\0\0\0\0\0\0\0\0\0\0", 17));
    record.line = 7; /* does not count */
    record.file.length = record.module.length = record.timestamp.length = record.message.length = 5; /* nor these */
    record.head.length = 5;
    CHECK(lies_as(&record, PLAIN, "\0\0\0\0\0\0\0\0\0\0\0\0\0\0\0", 15));
    CHECK(lies_as(&record, HEADS, "\0\0\0\0\0\0\0\0\0\0\0\0\0\0\0\0\0", 17));
    record.file = record.module = pralakuon_text_of(""); /* empty, and there */
    CHECK(lies_as(&record, PLAIN, "\0\0\5\0\0\0\0\0\0\0\0\0\0\0\0", 15));
    record.source = PRALAKUON_SOURCE_HOST;
    record.level = PRALAKUON_LEVEL_TRACE;
    record.has_line = 255;
    record.line = 0x04030201;
    record.file = pralakuon_text_of("a");
    record.module = pralakuon_text_of("bc");
    record.timestamp = pralakuon_text_of("def");
    record.message = pralakuon_text_of("ghij");
    CHECK(lies_as(&record, PLAIN, "\1\5\7\1\2\3\4\1\0\2\0\3\0\4\0abcdefghij", 25));
    record.source = record.level = 255;
    record.line = UINT32_MAX;
    CHECK(lies_as(&record, PLAIN, "\377\377\7\377\377\377\377\1\0\2\0\3\0\4\0abcdefghij", 25));
}

/* A head has a place only by settings that know heads; by others it is marked, and nothing else. */
static void layouts_of_heads(void)
{
    struct pralakuon_record record = nothing_known();

    record.head = pralakuon_text_of(""); /* empty, and there */
    CHECK(lies_as(&record, HEADS, "\0\0\10\0\0\0\0\0\0\0\0\0\0\0\0\0\0", 17));
    CHECK(lies_as(&record, PLAIN, "\0\0\10\0\0\0\0\0\0\0\0\0\0\0\0", 15));
    record.level = PRALAKUON_LEVEL_TRACE;
    record.file = pralakuon_text_of("a");
    record.message = pralakuon_text_of("bc");
    record.head = pralakuon_text_of("H-07");
    CHECK(lies_as(&record, HEADS, "\0\5\11\0\0\0\0\1\0\0\0\0\0\2\0\4\0abcH-07", 24));
    CHECK(lies_as(&record, PLAIN, "\0\5\11\0\0\0\0\1\0\0\0\0\0\2\0abc", 18));
}

/* What a line call says to a record. */
static unsigned refusal_to(const struct pralakuon_record *record, uint8_t settings)
{
    static uint8_t laid_out[PRALAKUON_RECORD_ROOM], out[4 * FIELD];
    size_t size = pralakuon_record_put(record, settings, laid_out, sizeof laid_out);

    return pralakuon_refusal_of(pralakuon_line((const uint8_t *)"{s}", 3, settings, laid_out, size, out, sizeof out));
}

static void long_texts(uint8_t settings)
{
    static const size_t lengths[] = {0,         1,     SERIAL - 1, SERIAL,    SERIAL + 1, SERIAL + 2, 255,   256,
                                     FIELD - 1, FIELD, FIELD + 1,  FIELD + 2, 65535,      65536,      65541, 70000};
    size_t i, place;

    for (i = 0; i < sizeof lengths / sizeof *lengths; i++)
        for (place = 0; place < texts_by(settings); place++) {
            struct pralakuon_record record = of_message(0);
            const size_t most = place == 4 ? (size_t)SERIAL : (size_t)FIELD;
            const size_t cut = lengths[i] <= most ? lengths[i] : most + 1;

            *text_at(&record, place) = of_length(lengths[i]);
            CHECK(size_of(&record, settings) == head_bytes(settings) + cut);
            CHECK(refusal_to(&record, settings) == (lengths[i] <= most ? 0 : PRALAKUON_FIELD_TOO_LONG));
        }
}

/* All four texts of the old layout. */
static void fill(struct pralakuon_record *record, size_t length)
{
    record->file = record->module = record->timestamp = record->message = of_length(length);
}

static void largest_records(void)
{
    struct pralakuon_record record = nothing_known();

    fill(&record, FIELD);
    CHECK(size_of(&record, PLAIN) == PRALAKUON_RECORD_BYTES_MAX);
    CHECK(refusal_to(&record, PLAIN) == 0);
    record.head = of_length(SERIAL);
    CHECK(size_of(&record, HEADS) == PRALAKUON_RECORD_BYTES_MAX_WITH_HEADS);
    CHECK(refusal_to(&record, HEADS) == 0);
    CHECK(refusal_to(&record, PLAIN) == PRALAKUON_NOT_A_RECORD);
    fill(&record, SIZE_MAX);
    record.head = of_length(SIZE_MAX);
    CHECK(size_of(&record, HEADS) == PRALAKUON_RECORD_ROOM);
    CHECK(refusal_to(&record, HEADS) == PRALAKUON_FIELD_TOO_LONG);
    CHECK(pralakuon_refusal_of(pralakuon_line((const uint8_t *)"{s}", 3, 0, xs, 0, NULL, 0)) == PRALAKUON_NOT_A_SHEET);
}

/* A begin that is answered with anything but 0 writes nothing and leaves a sheet that takes no records. */
static void not_begun(enum pralakuon_sheet_answer answer, uint8_t settings, struct pralakuon_text template_,
                      size_t room)
{
    uint8_t *out = painted(room, PAINT);
    struct pralakuon_sheet sheet;
    struct pralakuon_record record = nothing_known();

    CHECK(pralakuon_sheet_begin(&sheet, settings, template_, out, room) == answer);
    CHECK(sheet.size == 0 && sheet.records == 0);
    CHECK(pralakuon_sheet_push(&sheet, &record) == PRALAKUON_SHEET_TOO_SMALL);
    CHECK(all_are(out, room, PAINT));
    free(out);
}

static void begun(struct pralakuon_text template_, size_t room, size_t size)
{
    uint8_t *out = painted(room, PAINT);
    struct pralakuon_sheet sheet;

    CHECK(pralakuon_sheet_begin(&sheet, 31, template_, out, room) == PRALAKUON_SHEET_WRITTEN);
    CHECK(sheet.bytes == out && sheet.size == size && sheet.records == 0 && sheet.settings == 31);
    CHECK(memcmp(out, "\1\0", 2) == 0 && out[6] == 31);
    CHECK(out[2] + 256u * out[3] == size - 6 && out[4] == 0 && out[5] == 0);
    CHECK(all_are(out + 7, size - 7, 'x') && all_are(out + size, room - size, PAINT));
    free(out);
}

static void beginnings(void)
{
    struct pralakuon_text absent;

    absent.bytes = NULL;
    absent.length = 9;
    begun(absent, 7, 7);
    begun(of_length(0), 7, 7);
    begun(of_length(3), 10, 10);
    begun(of_length(3), 11, 10);
    begun(of_length(65529), SHEET, SHEET);
    begun(of_length(65529), SHEET + 9, SHEET);
    not_begun(PRALAKUON_SHEET_TOO_SMALL, 0, of_length(0), 6);
    not_begun(PRALAKUON_SHEET_TOO_SMALL, 0, of_length(0), 0);
    not_begun(PRALAKUON_SHEET_TOO_SMALL, 0, of_length(3), 9);
    not_begun(PRALAKUON_SHEET_TOO_SMALL, 0, of_length(65530), SHEET);
    not_begun(PRALAKUON_SHEET_TOO_SMALL, 0, of_length(65530), SHEET + 9);
    not_begun(PRALAKUON_SHEET_TOO_SMALL, 0, of_length(SIZE_MAX), SHEET);
    not_begun(PRALAKUON_SHEET_UNKNOWN_SETTINGS, 32, of_length(0), 7);
    not_begun(PRALAKUON_SHEET_UNKNOWN_SETTINGS, 128 | 31, of_length(0), 7);
}

static int same_sheet(const struct pralakuon_sheet *a, const struct pralakuon_sheet *b)
{
    return a->bytes == b->bytes && a->room == b->room && a->size == b->size && a->empty == b->empty &&
           a->records == b->records && a->settings == b->settings;
}

/* A push that is answered with anything but 0 leaves memory and sheet as they were. */
static void not_pushed(enum pralakuon_sheet_answer answer, struct pralakuon_sheet *sheet, size_t message)
{
    struct pralakuon_record record = of_message(message);
    struct pralakuon_sheet before = *sheet;
    uint8_t *bytes = painted(sheet->room, 0);

    memcpy(bytes, sheet->bytes, sheet->room);
    CHECK(pralakuon_sheet_push(sheet, &record) == answer);
    CHECK(memcmp(bytes, sheet->bytes, sheet->room) == 0 && same_sheet(&before, sheet));
    free(bytes);
}

static void pushed(struct pralakuon_sheet *sheet, size_t message)
{
    struct pralakuon_record record = of_message(message);
    size_t size = sheet->size + 4 + head_bytes(sheet->settings) + message, records = sheet->records + 1;

    CHECK(pralakuon_sheet_push(sheet, &record) == PRALAKUON_SHEET_WRITTEN);
    CHECK(sheet->size == size && sheet->records == records);
    /* A whole sheet, by the archive's judgement: 13 only, since there is no room for its lines. */
    CHECK(pralakuon_refusal_of(pralakuon_session(sheet->bytes, sheet->size, NULL, 0)) == PRALAKUON_LINE_TOO_LONG);
}

/* A sheet with this room, in which an empty sheet takes 10 bytes and a record of an empty message 19, or 21 with heads. */
static void fills(size_t room, uint8_t settings)
{
    uint8_t *out = painted(room, PAINT);
    struct pralakuon_sheet sheet;
    const size_t limit = room < SHEET ? room : (size_t)SHEET, each = 4 + head_bytes(settings);
    size_t left;

    CHECK(pralakuon_sheet_begin(&sheet, settings, pralakuon_text_of("{s}"), out, room) == 0);
    not_pushed(PRALAKUON_SHEET_TOO_SMALL, &sheet, limit - 10 - each + 1);
    pushed(&sheet, 5);
    not_pushed(PRALAKUON_SHEET_TOO_SMALL, &sheet, limit - 10 - each + 1);
    not_pushed(PRALAKUON_SHEET_TOO_SMALL, &sheet, SIZE_MAX);
    not_pushed(PRALAKUON_SHEET_FULL, &sheet, limit - 10 - each);
    left = limit - sheet.size - each;
    not_pushed(PRALAKUON_SHEET_FULL, &sheet, left + 1);
    pushed(&sheet, left);
    CHECK(sheet.size == limit && all_are(out + limit, room - limit, PAINT));
    not_pushed(PRALAKUON_SHEET_FULL, &sheet, 0);
    free(out);
}

/* As many records as a sheet can have: its bodies run out of room before they run out of numbers. */
static void many_records(void)
{
    static uint8_t out[SHEET], lines[SHEET];
    const size_t most = (SHEET - 10) / 19;
    struct pralakuon_sheet sheet;
    struct pralakuon_record record = of_message(0);

    CHECK(pralakuon_sheet_begin(&sheet, 0, pralakuon_text_of("{s}"), out, sizeof out) == 0);
    while (pralakuon_sheet_push(&sheet, &record) == 0)
        ;
    CHECK(sheet.records == most);
    CHECK(pralakuon_session(sheet.bytes, sheet.size, lines, sizeof lines) == most * 256 && all_are(lines, most, '\n'));
}

/* Texts stay whole in a sheet, also those that a line call would refuse. */
static void whole_texts(void)
{
    static uint8_t out[SHEET], lines[64];
    struct pralakuon_sheet sheet;

    CHECK(pralakuon_sheet_begin(&sheet, 0, pralakuon_text_of("{s}"), out, sizeof out) == 0);
    pushed(&sheet, 5);
    pushed(&sheet, 60000);
    CHECK(pralakuon_session(sheet.bytes, sheet.size, lines, sizeof lines) == 11 * 256);
    CHECK(memcmp(lines, "xxxxx\n! 11\n", 11) == 0);
}

/* A head is told in a sheet that knows heads, and told to be missing or too long; in one that does not it is refused. */
static void sheets_with_heads(void)
{
    static uint8_t out[SHEET], lines[64];
    struct pralakuon_sheet sheet;
    struct pralakuon_record record = of_message(1);

    CHECK(pralakuon_sheet_begin(&sheet, HEADS, pralakuon_text_of("{d} {s}"), out, sizeof out) == 0);
    CHECK(pralakuon_sheet_push(&sheet, &record) == 0);
    record.head = pralakuon_text_of("H-07");
    CHECK(pralakuon_sheet_push(&sheet, &record) == 0);
    record.head = of_length(60000); /* it stays whole */
    CHECK(pralakuon_sheet_push(&sheet, &record) == 0 && sheet.size > 60000);
    CHECK(pralakuon_session(sheet.bytes, sheet.size, lines, sizeof lines) == 21 * 256);
    CHECK(memcmp(lines, "<head> x\nH-07 x\n! 11\n", 21) == 0);

    CHECK(pralakuon_sheet_begin(&sheet, PLAIN, pralakuon_text_of("{s}"), out, sizeof out) == 0);
    CHECK(pralakuon_sheet_push(&sheet, &record) == 0);
    CHECK(pralakuon_session(sheet.bytes, sheet.size, lines, sizeof lines) == 5 * 256);
    CHECK(memcmp(lines, "! 14\n", 5) == 0);
}

static void unknown_numbers(void)
{
    unsigned number;

    for (number = 18; number < 300; number++)
        CHECK(strcmp(pralakuon_refusal_text(number), "an unknown refusal") == 0);
    /* 10 is no longer given, and 16 not yet. */
    CHECK(strcmp(pralakuon_refusal_text(10), "an unknown refusal") == 0);
    CHECK(strcmp(pralakuon_refusal_text(16), "an unknown refusal") == 0);
    for (number = 6; number < 300; number++)
        CHECK(strcmp(pralakuon_level_name(number), "an unknown level") == 0);
    CHECK(strcmp(pralakuon_refusal_text(UINT_MAX), "an unknown refusal") == 0);
    CHECK(strcmp(pralakuon_level_name(UINT_MAX), "an unknown level") == 0);
}

static size_t number_at(const uint8_t *from, int bytes)
{
    size_t number = 0;

    while (bytes-- > 0)
        number = number << 8 | from[bytes];
    return number;
}

/* The record of a body that the archive accepts as one by these settings. */
static struct pralakuon_record taken_apart(const uint8_t *body, uint8_t settings)
{
    struct pralakuon_record record = nothing_known();
    const uint8_t *text = body + head_bytes(settings);
    size_t place;

    record.source = body[0];
    record.level = body[1];
    record.has_line = body[2] & PRALAKUON_PRESENT_LINE;
    record.line = (uint32_t)number_at(body + 3, 4);
    for (place = 0; place < texts_by(settings); place++) {
        struct pralakuon_text *taken = text_at(&record, place);

        taken->bytes = text;
        taken->length = number_at(body + 7 + 2 * place, 2);
        text += taken->length;
    }
    if (!(body[2] & PRALAKUON_PRESENT_FILE))
        record.file.bytes = NULL;
    if (!(body[2] & PRALAKUON_PRESENT_MODULE))
        record.module.bytes = NULL;
    if (!(body[2] & PRALAKUON_PRESENT_HEAD))
        record.head.bytes = NULL;
    return record;
}

static int copy(void)
{
    static uint8_t in[SHEET], out[SHEET];
    size_t size = fread(in, 1, sizeof in, stdin), i, bodies;
    struct pralakuon_sheet sheet;
    struct pralakuon_text template_;
    uint8_t *body;

    CHECK(pralakuon_refusal_of(pralakuon_session(in, size, NULL, 0)) != PRALAKUON_NOT_A_SHEET);
    bodies = number_at(in, 2);
    body = in + 2 + 4 * bodies;
    template_.bytes = body + 1;
    template_.length = number_at(in + 2, 4) - 1;
    CHECK(pralakuon_sheet_begin(&sheet, body[0], template_, out, sizeof out) == 0);
    for (i = 1; i < bodies; i++) {
        struct pralakuon_record record;

        body += number_at(in + 2 + 4 * (i - 1), 4);
        record = taken_apart(body, sheet.settings);
        CHECK(pralakuon_sheet_push(&sheet, &record) == 0);
    }
    return fwrite(out, 1, sheet.size, stdout) == sheet.size ? 0 : 1;
}

static int print_texts(void)
{
    unsigned number;

    for (number = 0; number <= PRALAKUON_DROPPED; number++)
        puts(pralakuon_refusal_text(number));
    for (number = 0; number <= 5; number++)
        puts(pralakuon_level_name(number));
    return 0;
}

int main(int count, char **words)
{
    static const size_t rooms[] = {64, 1000, SHEET - 1, SHEET, SHEET + 100};
    size_t i;

    memset(xs, 'x', sizeof xs);
    if (count > 1)
        return strcmp(words[1], "copy") == 0 ? copy() : print_texts();
    texts();
    layouts();
    layouts_of_heads();
    long_texts(PLAIN);
    long_texts(HEADS);
    largest_records();
    beginnings();
    for (i = 0; i < sizeof rooms / sizeof *rooms; i++) {
        fills(rooms[i], PLAIN);
        fills(rooms[i], HEADS);
    }
    many_records();
    whole_texts();
    sheets_with_heads();
    unknown_numbers();
    puts("the pair keeps its edges");
    return 0;
}
