/* A tour of pralakuon.h and pralakuon_record.h: every entry is called, and what it answers is printed. Meant to be
 * copied from.
 *
 *     cc -std=c99 -I include host/tests/c/tour.c include/pralakuon_record.c -L target/archive -lpralakuon_c -o tour
 */
#include <stdio.h>
#include <string.h>

#include "pralakuon.h"
#include "pralakuon_record.h"

/* What memory is filled with before it is lent, to show that it stays as it was found. */
enum { PAINT = 0xa5 };

static const char *as_found(const uint8_t *memory, size_t length)
{
    for (size_t i = 0; i < length; i++)
        if (memory[i] != PAINT)
            return "changed";
    return "as it was";
}

static void show_version(void)
{
    unsigned version = (unsigned)pralakuon_length_of(pralakuon_version());

    printf("archive %u.%u, ", version >> 16, version >> 8 & 255);
    puts(pralakuon_fits() ? "which fits this header" : "which does not fit this header");
}

/* A caret under a place of a template that is one line. A character has one column and begins with any byte but 0x80 to
 * 0xBF. */
static void point_at(const char *template_, size_t place)
{
    puts(template_);
    for (size_t i = 0; i < place; i++)
        if (((uint8_t)template_[i] & 0xc0) != 0x80)
            putchar(' ');
    puts("^");
}

static void show_template(const char *template_, uint8_t settings)
{
    const uint8_t *bytes = (const uint8_t *)template_;
    uint64_t answer = pralakuon_check(bytes, strlen(template_), settings);
    unsigned refusal = pralakuon_refusal_of(answer);

    if (refusal == PRALAKUON_DROPPED) {
        size_t place = (size_t)pralakuon_place_of(answer);
        printf("refused, %u: %s, first at byte %zu:\n", refusal, pralakuon_refusal_text(refusal), place);
        point_at(template_, place);
    } else if (refusal) {
        printf("%s is refused, %u: %s\n", template_, refusal, pralakuon_refusal_text(refusal));
    } else {
        uint64_t names = pralakuon_length_of(pralakuon_timestamp(bytes, strlen(template_), settings));
        printf("%s is read and names %s\n", template_, names ? "the time" : "no time");
    }
}

static void show_builtin(uint8_t style, uint8_t location, uint8_t timestamp, uint8_t host)
{
    char out[PRALAKUON_BUILTIN_BYTES_MAX];
    uint64_t answer = pralakuon_builtin(style, location, timestamp, host, (uint8_t *)out, sizeof out);

    if (pralakuon_refusal_of(answer) == 0)
        printf("built-in: %.*s\n", (int)pralakuon_length_of(answer), out);
}

/* The line of a record with so much room for it. */
static void show_line(const char *template_, uint8_t settings, const struct pralakuon_record *record, size_t room)
{
    static uint8_t laid_out[PRALAKUON_RECORD_ROOM];
    uint8_t out[256];
    size_t size = pralakuon_record_put(record, settings, laid_out, sizeof laid_out);

    memset(out, PAINT, sizeof out);
    uint64_t answer =
        pralakuon_line((const uint8_t *)template_, strlen(template_), settings, laid_out, size, out, room);
    unsigned refusal = pralakuon_refusal_of(answer);
    size_t length = (size_t)pralakuon_length_of(answer);

    printf("%s, room %zu: ", pralakuon_level_name(record->level), room);
    if (refusal == 0)
        printf("%.*s, behind it memory is %s\n", (int)length, (char *)out, as_found(out + length, sizeof out - length));
    else if (refusal == PRALAKUON_LINE_TOO_LONG)
        printf("%zu bytes are needed, memory is %s\n", length, as_found(out, sizeof out));
    else
        printf("refused, %u: %s, memory is %s\n", refusal, pralakuon_refusal_text(refusal), as_found(out, sizeof out));
}

static void show_visible(const char *text)
{
    char out[80];
    uint64_t answer = pralakuon_visible((const uint8_t *)text, strlen(text), (uint8_t *)out, sizeof out);

    if (pralakuon_refusal_of(answer) == 0)
        printf("visible of %zu bytes: %.*s\n", strlen(text), (int)pralakuon_length_of(answer), out);
}

static void show_session(const uint8_t *sheet, size_t size)
{
    static uint8_t out[65536];
    uint64_t answer = pralakuon_session(sheet, size, out, sizeof out);
    unsigned refusal = pralakuon_refusal_of(answer);

    if (refusal == 0)
        printf("session of %zu bytes:\n%.*s", size, (int)pralakuon_length_of(answer), (char *)out);
    else
        printf("session of %zu bytes is refused, %u: %s\n", size, refusal, pralakuon_refusal_text(refusal));
}

/* A sheet of as many of the records as it has room for. */
static void show_sheet(const struct pralakuon_record *records, size_t count, size_t room)
{
    uint8_t memory[512];
    struct pralakuon_sheet sheet;

    if (pralakuon_sheet_begin(&sheet, PRALAKUON_PLAIN, pralakuon_text_of("[{L}] {s}"), memory, room))
        return;
    for (size_t i = 0; i < count; i++)
        if (pralakuon_sheet_push(&sheet, &records[i]) == PRALAKUON_SHEET_FULL)
            printf("record %zu goes into the next sheet\n", i);
    show_session(sheet.bytes, sheet.size);
}

int main(void)
{
    /* What is not known is left out. */
    const struct pralakuon_record records[] = {
        {
            .level = PRALAKUON_LEVEL_ERROR,
            .file = pralakuon_text_of("/head/src/gauge.rs"),
            .has_line = 1,
            .line = 118,
            .message = pralakuon_text_of("hello"),
        },
        {.message = pralakuon_text_of("boot")},
        {.source = PRALAKUON_SOURCE_HOST}, /* a host's record without level, which is refused */
    };
    /* Which head measured it. */
    const struct pralakuon_record headed = {
        .level = PRALAKUON_LEVEL_INFO,
        .message = pralakuon_text_of("hello"),
        .head = pralakuon_text_of("H-07"),
    };
    /* A wall's name in Japanese: two wide characters, a space, `B3`. */
    const struct pralakuon_record named = {.level = PRALAKUON_LEVEL_INFO, .message = pralakuon_text_of("北壁 B3")};

    /* What firmware sends when a self-test fails: the two values are laid out, in a line with newlines in it. */
    const struct pralakuon_record failed = {
        .level = PRALAKUON_LEVEL_ERROR,
        .message = pralakuon_text_of("self-test failed\n left: `1.25`\nright: `1.5`"),
    };

    show_version();
    show_template("[{L}] {s}", PRALAKUON_PLAIN);
    show_template("{t} {s}", PRALAKUON_PLAIN);
    show_template("{t}", PRALAKUON_PLAIN);
    show_template("{s} %{t}", PRALAKUON_PLAIN); /* the % was mistyped, and the time is dropped without a word */
    show_template("{s} %{t}", PRALAKUON_STRICT);
    show_builtin(PRALAKUON_STYLE_DEFAULT, 0, 1, 0);
    show_builtin(PRALAKUON_STYLE_ONE_LINE, 0, 0, 1);
    show_line("[{L}] {f}:{l:1} {s}", PRALAKUON_PLAIN, &records[0], 26);
    show_line("[{L}] {f}:{l:1} {s}", PRALAKUON_PLAIN, &records[0], 25);
    show_line("[{L}] {f}:{l:1} {s}", PRALAKUON_PLAIN, &records[2], 25);
    show_line("{d:>6} {s}", PRALAKUON_HEADS, &headed, 12);
    show_line("{d:>6} {s}", PRALAKUON_HEADS, &records[0], 12);
    show_line("{d:>6} {s}", PRALAKUON_PLAIN, &headed, 12); /* these settings know no head */
    show_line("{s:9}|", PRALAKUON_PLAIN, &named, 14);
    show_line("{s:9}|", PRALAKUON_PLACES, &named, 14); /* its five characters take seven places */
    show_line("[{L}] {s}", PRALAKUON_PLAIN, &failed, 57);
    show_visible("\033[1m[\033[31mERROR\033[0m\033[1m]  \033[0m|hello");
    show_sheet(records, 3, 512);
    show_sheet(records, 3, 81);
    show_session((const uint8_t *)"not a sheet", 11);
    return 0;
}
