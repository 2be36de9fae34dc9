/* Holds the macros and enums of pralakuon.h against the archive: each limit is taken, and one more is refused. */
#include "pralakuon.h"
#include "pralakuon_record.h"

#include "check.h"

static char text[2 * PRALAKUON_SHEET_BYTES_MAX];

/* `before`, `count` times `part`, `after`, as a C string in `text`. */
static const char *repeated(const char *before, const char *part, size_t count, const char *after)
{
    char *end = text;

    end += strlen(strcpy(end, before));
    while (count-- > 0)
        end += strlen(strcpy(end, part));
    strcpy(end, after);
    return text;
}

static uint64_t check_by(const char *template_, uint8_t settings)
{
    return pralakuon_check((const uint8_t *)template_, strlen(template_), settings);
}

static unsigned check(const char *template_)
{
    return pralakuon_refusal_of(check_by(template_, PRALAKUON_PLAIN));
}

static unsigned check_depth(size_t depth)
{
    char braces[16] = "{s}";

    memset(braces + 3, '}', depth - 1);
    return check(repeated("", "{a{L}", depth - 1, braces));
}

static unsigned check_width(unsigned width)
{
    char template_[16];

    sprintf(template_, "{s:%u}", width);
    return check(template_);
}

static void templates(void)
{
    CHECK(check(repeated("{s}", "x", PRALAKUON_TEMPLATE_BYTES_MAX - 3, "")) == 0);
    CHECK(check(repeated("{s}", "x", PRALAKUON_TEMPLATE_BYTES_MAX - 2, "")) == PRALAKUON_TEMPLATE_TOO_LONG);
    CHECK(check(repeated("", "{s}", PRALAKUON_TEMPLATE_SEGMENTS_MAX, "")) == 0);
    CHECK(check(repeated("", "{s}", PRALAKUON_TEMPLATE_SEGMENTS_MAX + 1, "")) == PRALAKUON_TOO_MANY_SEGMENTS);
    CHECK(check_depth(PRALAKUON_TEMPLATE_DEPTH_MAX) == 0);
    CHECK(check_depth(PRALAKUON_TEMPLATE_DEPTH_MAX + 1) == PRALAKUON_TOO_DEEP);
    CHECK(check_width(PRALAKUON_TEMPLATE_WIDTH_MAX) == 0);
    CHECK(check_width(PRALAKUON_TEMPLATE_WIDTH_MAX + 1) == PRALAKUON_TOO_WIDE);
    CHECK(check(repeated("{", "f", PRALAKUON_TEMPLATE_F_MAX, "}{s}")) == 0);
    CHECK(check(repeated("{", "f", PRALAKUON_TEMPLATE_F_MAX + 1, "}{s}")) == PRALAKUON_TOO_MANY_F);
}

static void builtins(void)
{
    uint8_t out[PRALAKUON_BUILTIN_BYTES_MAX];
    uint64_t longest = 0;
    uint8_t i;

    for (i = 0; i < 16; i++) {
        uint64_t answer = pralakuon_builtin(i & 1, i >> 1 & 1, i >> 2 & 1, i >> 3, out, sizeof out);
        CHECK(pralakuon_refusal_of(answer) == 0);
        if (pralakuon_length_of(answer) > longest)
            longest = pralakuon_length_of(answer);
    }
    CHECK(longest == sizeof out);
    CHECK(pralakuon_builtin(PRALAKUON_STYLE_ONE_LINE, 1, 1, 1, out, sizeof out - 1) == 59 * 256 + 13);
    CHECK(pralakuon_builtin(PRALAKUON_STYLE_DEFAULT, 0, 0, 0, out, sizeof out) == 7 * 256);
    CHECK(memcmp(out, "{L} {s}", 7) == 0);
}

/* The answer to a record by a template, in a room that is long enough for all lines of this file. */
static uint64_t line_of(const char *template_, uint8_t settings, const struct pralakuon_record *record, uint8_t *out)
{
    static uint8_t laid_out[PRALAKUON_RECORD_ROOM];
    size_t size = pralakuon_record_put(record, settings, laid_out, sizeof laid_out);

    memset(out, PAINT, PRALAKUON_RECORD_ROOM);
    return pralakuon_line((const uint8_t *)template_, strlen(template_), settings, laid_out, size, out,
                          PRALAKUON_RECORD_ROOM);
}

static int is_line(uint64_t answer, const uint8_t *out, const char *line)
{
    return answer == strlen(line) * 256 && memcmp(out, line, strlen(line)) == 0;
}

/* A level's line: its name, unless it is none. */
static void level(uint8_t number, const char *line)
{
    static uint8_t out[PRALAKUON_RECORD_ROOM];
    struct pralakuon_record record;

    memset(&record, 0, sizeof record);
    record.level = number;
    record.message = pralakuon_text_of("m");
    CHECK(is_line(line_of("{L:1} {s}", 0, &record, out), out, line));
}

static void levels(void)
{
    static uint8_t out[PRALAKUON_RECORD_ROOM];
    struct pralakuon_record record;

    level(PRALAKUON_LEVEL_NONE, "m");
    level(PRALAKUON_LEVEL_ERROR, "ERROR m");
    level(PRALAKUON_LEVEL_WARN, "WARN m");
    level(PRALAKUON_LEVEL_INFO, "INFO m");
    level(PRALAKUON_LEVEL_DEBUG, "DEBUG m");
    level(PRALAKUON_LEVEL_TRACE, "TRACE m");
    memset(&record, 0, sizeof record);
    record.level = PRALAKUON_LEVEL_TRACE + 1;
    CHECK(line_of("{s}", 0, &record, out) == PRALAKUON_NOT_A_RECORD);
}

static void sources(void)
{
    static uint8_t out[PRALAKUON_RECORD_ROOM];
    struct pralakuon_record record;

    memset(&record, 0, sizeof record);
    record.level = PRALAKUON_LEVEL_INFO;
    record.timestamp = pralakuon_text_of("7");
    record.message = pralakuon_text_of("m");
    record.source = PRALAKUON_SOURCE_DEVICE;
    CHECK(is_line(line_of("{t}{s}", 0, &record, out), out, "7m"));
    record.source = PRALAKUON_SOURCE_HOST;
    CHECK(is_line(line_of("{t}{s}", 0, &record, out), out, "<time>m"));
    record.source = PRALAKUON_SOURCE_HOST + 1;
    CHECK(line_of("{t}{s}", 0, &record, out) == PRALAKUON_NOT_A_RECORD);
}

static void settings(void)
{
    static const char template_[] = "{[{L}]%bold%<9}|{s}";
    static uint8_t out[PRALAKUON_RECORD_ROOM];
    struct pralakuon_record record;

    memset(&record, 0, sizeof record);
    record.level = PRALAKUON_LEVEL_ERROR;
    CHECK(is_line(line_of(template_, PRALAKUON_PLAIN, &record, out), out, "[ERROR]  |"));
    CHECK(is_line(line_of(template_, PRALAKUON_STRAIGHT, &record, out), out, "[ERROR]  |"));
    CHECK(is_line(line_of(template_, PRALAKUON_COLOUR, &record, out), out,
                  "\033[1m[\033[31mERROR\033[0m\033[1m]\033[0m|"));
    CHECK(is_line(line_of(template_, PRALAKUON_COLOUR | PRALAKUON_STRAIGHT, &record, out), out,
                  "\033[1m[\033[31mERROR\033[0m\033[1m]  \033[0m|"));
    CHECK(is_line(line_of(template_, PRALAKUON_STRICT, &record, out), out, "[ERROR]  |"));
    CHECK(is_line(line_of(template_, PRALAKUON_HEADS, &record, out), out, "[ERROR]  |"));
    CHECK(is_line(line_of(template_, PRALAKUON_PLACES, &record, out), out, "[ERROR]  |"));
    CHECK(line_of(template_, 2 * PRALAKUON_PLACES, &record, out) == PRALAKUON_NOT_A_SHEET);
}

/* A wide character takes two places: one more, and so one of padding less, than without the bit. */
static void places(void)
{
    static uint8_t out[PRALAKUON_RECORD_ROOM];
    struct pralakuon_record record;

    memset(&record, 0, sizeof record);
    record.level = PRALAKUON_LEVEL_INFO;
    record.message = pralakuon_text_of("\345\243\201B3"); /* U+58C1, a wall */
    CHECK(is_line(line_of("{s:6}|", PRALAKUON_PLAIN, &record, out), out, "\345\243\201B3   |"));
    CHECK(is_line(line_of("{s:6}|", PRALAKUON_PLACES, &record, out), out, "\345\243\201B3  |"));
    CHECK(is_line(line_of("{s:6}|", PRALAKUON_PLACES | PRALAKUON_HEADS, &record, out), out, "\345\243\201B3  |"));
}

/* A record's serial: shown, absent, empty, at its limit; by settings that know no head it is refused. */
static void heads(void)
{
    static uint8_t out[PRALAKUON_RECORD_ROOM], serial[PRALAKUON_SERIAL_BYTES_MAX + 1];
    struct pralakuon_record record;

    memset(&record, 0, sizeof record);
    record.level = PRALAKUON_LEVEL_INFO;
    record.message = pralakuon_text_of("m");
    CHECK(is_line(line_of("{d} {s}", PRALAKUON_PLAIN, &record, out), out, "<head> m"));
    CHECK(is_line(line_of("{d} {s}", PRALAKUON_HEADS, &record, out), out, "<head> m"));
    record.head = pralakuon_text_of("");
    CHECK(is_line(line_of("{d} {s}", PRALAKUON_HEADS, &record, out), out, " m"));
    record.head = pralakuon_text_of("H-07");
    CHECK(is_line(line_of("{d:>6} {s}", PRALAKUON_HEADS, &record, out), out, "  H-07 m"));
    CHECK(line_of("{s}", PRALAKUON_PLAIN, &record, out) == PRALAKUON_NOT_A_RECORD);
    memset(serial, 'x', sizeof serial);
    record.head.bytes = serial;
    record.head.length = PRALAKUON_SERIAL_BYTES_MAX;
    CHECK(is_line(line_of("{s}", PRALAKUON_HEADS, &record, out), out, "m"));
    record.head.length = PRALAKUON_SERIAL_BYTES_MAX + 1;
    CHECK(line_of("{s}", PRALAKUON_HEADS, &record, out) == PRALAKUON_FIELD_TOO_LONG);
}

static uint64_t timestamp_by(const char *template_, uint8_t settings)
{
    return pralakuon_timestamp((const uint8_t *)template_, strlen(template_), settings);
}

/* What a session answers to a sheet without records, whose template drops bytes from place 4 on. */
static uint64_t session_by(uint8_t settings)
{
    uint8_t sheet[] = "\1\0\11\0\0\0?{s} %{t}";

    sheet[6] = settings;
    return pralakuon_session(sheet, sizeof sheet - 1, NULL, 0);
}

/* The bytes that are dropped without a word, and are not by strict settings; a bit that is unknown comes first. */
static void strict(void)
{
    static const char template_[] = "{s} %{t}";
    static uint8_t out[PRALAKUON_RECORD_ROOM];
    const uint64_t dropped = 4 * 256 + PRALAKUON_DROPPED;
    struct pralakuon_record record;
    unsigned settings;

    memset(&record, 0, sizeof record);
    record.level = PRALAKUON_LEVEL_TRACE + 1; /* which would be refused, too */
    for (settings = 0; settings < 256; settings++) {
        const uint8_t byte = (uint8_t)settings;
        const int strictly = (settings & PRALAKUON_STRICT) != 0;
        const uint64_t refusal = settings >= 32 ? (uint64_t)PRALAKUON_NOT_A_SHEET : strictly ? dropped : 0;

        CHECK(check_by(template_, byte) == refusal);
        CHECK(timestamp_by(template_, byte) == refusal);
        CHECK(session_by(byte) == refusal);
        CHECK(line_of(template_, byte, &record, out) == (refusal ? refusal : (uint64_t)PRALAKUON_NOT_A_RECORD));
        CHECK(all_are(out, PRALAKUON_RECORD_ROOM, PAINT));
    }
    CHECK(pralakuon_refusal_of(dropped) == 17 && pralakuon_place_of(dropped) == 4);
    CHECK(check_by("{s} {t}", PRALAKUON_STRICT) == 0 && timestamp_by("{s} {t}", PRALAKUON_STRICT) == 256);
    CHECK(check_by(repeated("{s}", "x", PRALAKUON_TEMPLATE_BYTES_MAX - 4, "%"), PRALAKUON_STRICT) ==
          (PRALAKUON_TEMPLATE_BYTES_MAX - 1) * 256 + PRALAKUON_DROPPED);
}

/* What a session of a sheet of this size answers: one record, whose message fills the sheet up. Laid out by hand, since
 * the pair writes no sheet that is too large. */
static unsigned session_of(size_t size)
{
    static uint8_t sheet[PRALAKUON_SHEET_BYTES_MAX + 1];
    const size_t contents = 2 + 2 * 4 + 4; /* how many, two lengths, settings and template */
    const size_t body = size - contents, message = body - PRALAKUON_RECORD_HEAD_BYTES;
    uint8_t *texts = sheet + contents + PRALAKUON_RECORD_HEAD_BYTES;

    memset(sheet, 0, sizeof sheet);
    memcpy(sheet, "\2\0\4\0\0\0", 6);
    sheet[6] = (uint8_t)(body & 255u);
    sheet[7] = (uint8_t)(body >> 8);
    memcpy(sheet + 10, "\0{s}", 4);
    texts[-2] = (uint8_t)(message & 255u);
    texts[-1] = (uint8_t)(message >> 8);
    return pralakuon_refusal_of(pralakuon_session(sheet, size, NULL, 0));
}

/* Whether a session prints a line of so many bytes, and not `! 13`: a message as often as it fits, then text. */
static int session_prints(size_t length)
{
    static uint8_t message[PRALAKUON_FIELD_BYTES_MAX], memory[PRALAKUON_SHEET_BYTES_MAX];
    static uint8_t out[2 * PRALAKUON_SESSION_LINE_BYTES_MAX];
    const size_t times = length / sizeof message, rest = length % sizeof message;
    char end[PRALAKUON_TEMPLATE_BYTES_MAX] = "";
    struct pralakuon_sheet sheet;
    struct pralakuon_record record;
    uint64_t answer;

    CHECK(rest < sizeof end);
    memset(message, 'x', sizeof message);
    memset(end, 'x', rest);
    memset(&record, 0, sizeof record);
    record.level = PRALAKUON_LEVEL_INFO;
    record.message.bytes = message;
    record.message.length = sizeof message;
    repeated("", "{s}", times, end);
    CHECK(pralakuon_sheet_begin(&sheet, 0, pralakuon_text_of(text), memory, sizeof memory) == 0);
    CHECK(pralakuon_sheet_push(&sheet, &record) == 0);
    answer = pralakuon_session(sheet.bytes, sheet.size, out, sizeof out);
    if (answer == 5 * 256 && memcmp(out, "! 13\n", 5) == 0)
        return 0;
    CHECK(answer == (length + 1) * 256 && all_are(out, length, 'x') && out[length] == '\n');
    return 1;
}

static void sessions(void)
{
    /* No room for the lines: 13 says that it is a sheet. */
    CHECK(session_of(PRALAKUON_SHEET_BYTES_MAX) == PRALAKUON_LINE_TOO_LONG);
    CHECK(session_of(PRALAKUON_SHEET_BYTES_MAX + 1) == PRALAKUON_NOT_A_SHEET);
    CHECK(session_prints(PRALAKUON_SESSION_LINE_BYTES_MAX));
    CHECK(!session_prints(PRALAKUON_SESSION_LINE_BYTES_MAX + 1));
}

static void visible(void)
{
    static const uint8_t coloured[] = "\033[1;31mred\033[0m \033[x";
    uint8_t out[9];

    memset(out, PAINT, sizeof out);
    CHECK(pralakuon_visible(coloured, sizeof coloured - 1, out, 6) == 7 * 256 + PRALAKUON_LINE_TOO_LONG);
    CHECK(all_are(out, sizeof out, PAINT));
    CHECK(pralakuon_visible(coloured, sizeof coloured - 1, out, sizeof out) == 7 * 256);
    CHECK(memcmp(out, "red \033[x", 7) == 0 && all_are(out + 7, 2, PAINT));
    CHECK(pralakuon_visible(NULL, 0, NULL, 0) == 0);
}

static void version(void)
{
    CHECK(pralakuon_refusal_of(pralakuon_version()) == 0);
    CHECK(pralakuon_fits());
}

int main(void)
{
    templates();
    builtins();
    levels();
    sources();
    settings();
    places();
    heads();
    strict();
    sessions();
    visible();
    version();
    puts("the header tells the archive's limits");
    return 0;
}
