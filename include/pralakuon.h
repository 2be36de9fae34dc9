/* Pralakuon: log records turned into lines that can be trusted to the byte.
 *
 * Memory that you hand to a call, as a pointer and a length, is called lent. Every call takes numbers and lent bytes and
 * can be given any bytes: it never reads or writes outside what it was lent and keeps nothing. What is lent must be there
 * for its whole length, and `out` must overlap nothing else that is lent. What has no length may be null. A length that is
 * too long cannot be noticed here, nor by a sanitizer, which does not see into the archive; valgrind notices it.
 *
 * Each call answers one number: a refusal's number in the low eight bits (0: none), a value in the others. The value is
 * a length with what was written and with refusal 13, a place with refusal 17, and 0 with every other refusal. A refusal
 * leaves lent memory as it was found; an accepted call changes only its own bytes at the front of `out`.
 *
 * What the archive libpralakuon_c.a needs of its surroundings:
 * - memcpy and memset, and nothing else to link; on Apple's arm64 bzero, too, which the system's library has. No other
 *   function is called: nothing is allocated, read, written, locked or aborted.
 * - A 64-bit little-endian processor, with its vector registers switched on (SSE2 on x86-64, NEON on aarch64). There is
 *   no archive for 32 bits.
 * - Stack: an entry was measured to take less than 15 KiB, on x86-64 (docs/SPEED.md). That is measured,
 *   not proved: give a thread that calls it 16 KiB more than it needs itself.
 * - No data but constants: it can stand in read-only memory, nothing has to be set up, and it runs at any address.
 * - Alignment: none, every pointer may be odd. So words are read at odd addresses: on aarch64 without an operating
 *   system, switch the MMU on first and lend normal memory.
 * - Threads: calls on different memory may run at the same time.
 */
#ifndef PRALAKUON_H
#define PRALAKUON_H

#include <stddef.h>
#include <stdint.h>

#ifdef __cplusplus
extern "C" {
#endif

/* Refusals. */
enum pralakuon_refusal {
    PRALAKUON_TEMPLATE_TOO_LONG = 1,     /* template over 1,024 bytes */
    PRALAKUON_TEMPLATE_NOT_UTF8 = 2,     /* template not UTF-8 */
    PRALAKUON_FAILURE = 3,               /* the crate's parser fails outright on the template */
    PRALAKUON_NO_MESSAGE = 4,            /* read, but no {s} at any depth */
    PRALAKUON_TOO_MANY_SEGMENTS = 5,     /* a 65th segment is made */
    PRALAKUON_TOO_DEEP = 6,              /* a closed brace is entered at depth 9 */
    PRALAKUON_TOO_WIDE = 7,              /* a width above 512 */
    PRALAKUON_TOO_MANY_F = 8,            /* a specifier name of more than 255 f */
    PRALAKUON_HALF_ESCAPE = 9,           /* a backslash as the last byte where a closing brace is searched */
    /* 10 is no longer given, and no other refusal takes its number */
    PRALAKUON_FIELD_TOO_LONG = 11,       /* a field over 4,096 bytes, or a head's serial over 32 */
    PRALAKUON_FIELD_NOT_UTF8 = 12,       /* a field not UTF-8 */
    PRALAKUON_LINE_TOO_LONG = 13,        /* longer than the lent buffer; the length is the one needed */
    PRALAKUON_NOT_A_RECORD = 14,         /* source, level, mask or an absent field that is there */
    PRALAKUON_NOT_A_SHEET = 15,          /* not laid out as a sheet or a record is, or an unknown settings bit */
    /* 16 is not given yet */
    PRALAKUON_DROPPED = 17               /* strict only: bytes dropped or a parameter lost; the place is the first's */
};

/* Settings: bits of one byte. Give the same byte to every call that takes one. Straight without colour is plain. Strict
 * changes no line: it refuses (17) the templates of which bytes would be dropped or a parameter would be lost. Heads
 * changes no line either: it says that records are laid out with the serial of a head, in a line call and in a sheet.
 * Places has widths count places of a screen: two for a character of East Asian Width W or F (Unicode 17.0.0), such as
 * those of Japanese, and one for each other. Without it each character counts one. */
enum pralakuon_settings {
    PRALAKUON_PLAIN = 0,
    PRALAKUON_COLOUR = 1,
    PRALAKUON_STRAIGHT = 2,
    PRALAKUON_STRICT = 4,
    PRALAKUON_HEADS = 8,
    PRALAKUON_PLACES = 16
};

/* Whose record it is. */
enum pralakuon_source {
    PRALAKUON_SOURCE_DEVICE = 0,
    PRALAKUON_SOURCE_HOST = 1
};

/* How grave a record is. A record of the device without level is a print. */
enum pralakuon_level {
    PRALAKUON_LEVEL_NONE = 0,
    PRALAKUON_LEVEL_ERROR = 1,
    PRALAKUON_LEVEL_WARN = 2,
    PRALAKUON_LEVEL_INFO = 3,
    PRALAKUON_LEVEL_DEBUG = 4,
    PRALAKUON_LEVEL_TRACE = 5
};

/* What a record has: bits of its mask. Timestamp and message have none; a timestamp that is not known is empty. The head
 * is known only by settings with PRALAKUON_HEADS: by others a record that is marked so is refused (14). */
enum pralakuon_present {
    PRALAKUON_PRESENT_FILE = 1,
    PRALAKUON_PRESENT_LINE = 2,
    PRALAKUON_PRESENT_MODULE = 4,
    PRALAKUON_PRESENT_HEAD = 8
};

/* Styles of the built-in templates. */
enum pralakuon_style {
    PRALAKUON_STYLE_DEFAULT = 0,
    PRALAKUON_STYLE_ONE_LINE = 1
};

/* Limits of a template: its bytes, its texts, specifiers and groups together, how deep braces stand, the width that can
 * be asked for, and the letters `f` of one specifier. */
#define PRALAKUON_TEMPLATE_BYTES_MAX 1024
#define PRALAKUON_TEMPLATE_SEGMENTS_MAX 64
#define PRALAKUON_TEMPLATE_DEPTH_MAX 8
#define PRALAKUON_TEMPLATE_WIDTH_MAX 512
#define PRALAKUON_TEMPLATE_F_MAX 255

/* The longest built-in template. */
#define PRALAKUON_BUILTIN_BYTES_MAX 59

/* Limits of a record: the bytes of each of its four texts; the bytes before them, which every record has; all of it. */
#define PRALAKUON_FIELD_BYTES_MAX 4096
#define PRALAKUON_RECORD_HEAD_BYTES 15
#define PRALAKUON_RECORD_BYTES_MAX (PRALAKUON_RECORD_HEAD_BYTES + 4 * PRALAKUON_FIELD_BYTES_MAX)

/* The same by settings with PRALAKUON_HEADS: the bytes of the fifth text, a head's serial; the bytes before all five; all
 * of it. */
#define PRALAKUON_SERIAL_BYTES_MAX 32
#define PRALAKUON_RECORD_HEAD_BYTES_WITH_HEADS 17
#define PRALAKUON_RECORD_BYTES_MAX_WITH_HEADS \
    (PRALAKUON_RECORD_HEAD_BYTES_WITH_HEADS + 4 * PRALAKUON_FIELD_BYTES_MAX + PRALAKUON_SERIAL_BYTES_MAX)

/* Limits of a session: the bytes of its sheet, and of one line. A record whose line is longer gets `! 13`. */
#define PRALAKUON_SHEET_BYTES_MAX 65536
#define PRALAKUON_SESSION_LINE_BYTES_MAX 65536

/* The version of this header. A caller made for MAJOR.MINOR works with every archive of the same MAJOR.MINOR. */
#define PRALAKUON_VERSION_MAJOR 0
#define PRALAKUON_VERSION_MINOR 6
#define PRALAKUON_VERSION_PATCH 1
#define PRALAKUON_VERSION (65536 * PRALAKUON_VERSION_MAJOR + 256 * PRALAKUON_VERSION_MINOR + PRALAKUON_VERSION_PATCH)

/* The refusal in an answer, or 0, and the value in it: a length, or the place with refusal 17, which is the number of
 * bytes of the template before it. */
static inline unsigned pralakuon_refusal_of(uint64_t answer) { return (unsigned)(answer & 255u); }
static inline uint64_t pralakuon_length_of(uint64_t answer) { return answer >> 8; }
static inline uint64_t pralakuon_place_of(uint64_t answer) { return answer >> 8; }

/* The line of one record. `record` is laid out as in a session sheet: source byte, level byte, mask of what is present,
 * u32 line, u16 lengths of file, module, timestamp, message, then those texts, all numbers little-endian. By settings with
 * PRALAKUON_HEADS the u16 length of the head's serial follows the four lengths, and the serial follows the four texts. What
 * is absent is 0 or empty. pralakuon_record.h lays records out.
 *
 * A line may hold newlines: those of its texts, and those of a comparison report. That is a device's message, of a print
 * too, of more than two lines whose last two are ` left: `..`` and `right: `..``, as the firmware sends it when a self-test
 * fails. It is laid out: the lines before, bold; `diff < left / right >`; the left value in red behind `<` and the right one
 * in green behind `>`, each on a line of its own and with what is not shared bold. A width, style or colour of {s} does not
 * apply to it, those of a group around it do. */
uint64_t pralakuon_line(const uint8_t *template_, size_t template_len, uint8_t settings, const uint8_t *record,
                        size_t record_len, uint8_t *out, size_t out_len);

/* The lines of a session sheet: for each record its line or `! N`, N being its refusal, and a newline. The settings byte in
 * it says how all its records are laid out; sheets from before there were heads have no PRALAKUON_HEADS. A sheet that is
 * none (15) and one whose template is refused (1 to 9, 17) have no lines, whatever the room: the refusal is answered.
 * Only of an accepted sheet 13 tells the length of all its lines. pralakuon_record.h writes sheets. */
uint64_t pralakuon_session(const uint8_t *sheet, size_t sheet_len, uint8_t *out, size_t out_len);

/* 0 for a template that is read by these settings, of which only strict counts, else its refusal. */
uint64_t pralakuon_check(const uint8_t *template_, size_t template_len, uint8_t settings);

/* Whether a template names {t}: length 1 for yes, 0 for no; or its refusal. Settings as for a check. */
uint64_t pralakuon_timestamp(const uint8_t *template_, size_t template_len, uint8_t settings);

/* A built-in template: style 0 is the default one, any other the one-line one; location, timestamp and host are no for
 * 0 and yes for any other. */
uint64_t pralakuon_builtin(uint8_t style, uint8_t location, uint8_t timestamp, uint8_t host, uint8_t *out,
                           size_t out_len);

/* What is visible of a text: its colour sequences (byte 27, `[`, any digits and `;`, `m`) taken out once, left to
 * right; all other bytes stay. The text need not be UTF-8. 13 with the length needed where `out` is too short; 15 for a
 * text of 2^56 bytes or more, which no machine can lend. */
uint64_t pralakuon_visible(const uint8_t *text, size_t text_len, uint8_t *out, size_t out_len);

/* The version of the archive, as a length: 65536 x major + 256 x minor + patch. Never a refusal. */
uint64_t pralakuon_version(void);

/* Whether the linked archive is one for this header: ask once, before any other call. */
static inline int pralakuon_fits(void)
{
    return pralakuon_length_of(pralakuon_version()) >> 8 == PRALAKUON_VERSION >> 8;
}

#ifdef __cplusplus
}
#endif

#endif
