/* The depot register, as C sees it. Link target/staticlib/libexport.a (`tools/rust.sh archive` makes it).
 *
 * A book is 16,384 words of 32 bits that you own and lend for the time of one call. docs/LAYOUT.md gives every word.
 * The library keeps nothing between calls, allocates nothing and calls nothing of yours.
 *
 * Every call on a book but depot_is_fit and depot_line answers with a number of the tables below. A refusal, any number but
 * 0, changes no word of the book and of `out`; but what depot_recover answers is how recovery ended, and the book is then that
 * after the records done. The calendar, at the end, needs no book and has a table of its own. One number is for all:
 * DEPOT_NO_ROOM, where `out` is too short for the answer. It is checked first of all.
 *
 * A length that is wrong is an answer, not a crash. What C cannot tell is yours to keep: a pointer points to as many
 * elements as its length says (it may be null where the length is 0), and the buffers of one call do not overlap. The
 * two records of depot_greater may.
 */
#ifndef DEPOT_REGISTER_H
#define DEPOT_REGISTER_H

#include <stddef.h>
#include <stdint.h>

#ifdef __cplusplus
extern "C" {
#endif

/* The version of the register. This is its one place: the scripts read it here, and the gate holds rust/ and CHANGELOG.md to it. */
#define DEPOT_REGISTER_VERSION "0.4.0"

#define DEPOT_BOOK_WORDS 16384 /* words of a book */
#define DEPOT_RECORD_WORDS 9   /* words of a version record */
#define DEPOT_READ_WORDS 8     /* room that depot_read's answer takes in `out` */
#define DEPOT_LIST_WORDS 64    /* the same of depot_list: DEPOT_READ_WORDS for each of DEPOT_MOST_LISTED bearings */
#define DEPOT_MOST_LISTED 8    /* the most bearings that a list may name */
#define DEPOT_WRITE_WORDS 2    /* room that depot_write's answer takes in `out` */
#define DEPOT_WHO_WORDS 2      /* room that depot_who_has's answer takes in `out` */
#define DEPOT_GRAMS_WORDS 2    /* room that depot_grams' answer takes in `out` */
#define DEPOT_FRAME_WORDS 1    /* room that what depot_write_frame and depot_read_frame tell takes in `out` */
#define DEPOT_MESSAGE_WORDS 10 /* words of a message that depot_read_frame hands out */
#define DEPOT_FRAME_MESSAGES 16 /* the most messages of a frame */
#define DEPOT_FRAME_BYTES 516  /* bytes of the longest frame */
#define DEPOT_NUMBER_WORDS 1   /* room that depot_day_number's answer takes in `out` */
#define DEPOT_DATE_WORDS 3     /* room that depot_date_of's answer takes in `out` */
#define DEPOT_NEXT_WORDS 4     /* room that depot_next_date's answer takes in `out` */
#define DEPOT_LAST_DAY 146096  /* the day number of 31 December 2399, the last that can be written */
#define DEPOT_LINE_BYTES 120   /* the longest line that is not a BAD LINE, its line feed not counted */
#define DEPOT_ANSWER_BYTES 618 /* room that every answer line has, its line feed counted: the longest is a list of eight */
#define DEPOT_NO_ROOM 100      /* the answer where `out` has fewer elements than the call's answer takes; nothing is done */

/* The answers. Each call checks in the order that stands with it, and the first that holds is the answer. */
enum depot_answer {
    DEPOT_DONE = 0,
    DEPOT_BAD_BOOK = 1,      /* the length is not 16,384 or, but for a setup, a count, a home or a part that the call reads
                              * or writes is not fit (docs/LAYOUT.md) */
    DEPOT_BAD_DEPOT = 2,     /* a depot or a home is not below the count of depots */
    DEPOT_BAD_SHELF = 3,     /* a shelf is not below its count */
    DEPOT_BAD_KEY = 4,       /* a bearing is not below its count */
    DEPOT_BAD_CREW = 5,      /* a crew is not below its count */
    DEPOT_SAME_DEPOT = 6,    /* a take from the depot itself */
    DEPOT_EMPTY_LINK = 7,    /* a take, and no untaken message stands on the link */
    DEPOT_WAIT = 8,          /* a write, and the crew's home entry is above the shelf's clock */
    DEPOT_LINK_FULL = 9,     /* a write or a tick, and some link out has no room */
    DEPOT_CLOCK_AT_END = 10, /* a write or a tick, and the clock is 2,147,483,647 */
    DEPOT_BAD_COUNTS = 11,   /* a setup, and a count is out of range or the homes are not as many as the crews */
    DEPOT_NOT_HERE_YET = 12, /* a move, and for some depot other than the new home the crew's entry is above the lowest stamp
                              * that any shelf of the new home has seen from it */
    DEPOT_BAD_LINE = 13,     /* depot_line only */
    DEPOT_BAD_CARD = 14,     /* a write, or the grams, and a length is not finite, above 0 and at most 2,000 */
    DEPOT_BAD_LIST = 15,     /* a list of no bearings, or of more than DEPOT_MOST_LISTED */
    DEPOT_BAD_DATE = 16      /* a write, and the value is over DEPOT_LAST_DAY */
};

/* Makes a fresh register: 1 to 4 depots, 1 to 4 shelves in each, 1 to 160 bearings, 1 to 16 crews, and the home depot of
 * each crew. Writes every word of the book; its old words are not looked at. Checks: 1, 11, 2. */
uint32_t depot_setup(uint32_t *book, size_t words, uint32_t depots, uint32_t shelves, uint32_t bearings, uint32_t crews,
                     const uint32_t *homes, size_t homes_count);

/* A crew reads a bearing at its home. Checks: 100 if out_count is below DEPOT_READ_WORDS, 1, 5, 4.
 * Done: out[0] is 1 for written, 0 for unwritten; out[1] the value, out[2] and out[3] the bits of the card's diameter and
 * width, all 0 if unwritten; out[4] to out[7] the entries of the vector, 0 past the depots. No other element of `out` is
 * written. An old book may hold values over DEPOT_LAST_DAY: it is fit, and they are read as they are. */
uint32_t depot_read(uint32_t *book, size_t words, uint32_t crew, uint32_t bearing, uint32_t *out, size_t out_count);

/* A crew writes a bearing's value, a day of the calendar below, and its card, at its home. The card is the bits of two
 * 32-bit floats, the outside diameter and the width in millimetres. Checks: 100 if out_count is below DEPOT_WRITE_WORDS,
 * 1, 5, 4, 16, 14, 8, 10, 9.
 * Done: out[0] is the stamp; out[1] is 1 for current, 0 for superseded. No other element of `out` is written. */
uint32_t depot_write(uint32_t *book, size_t words, uint32_t crew, uint32_t bearing, uint32_t value, uint32_t diameter,
                     uint32_t width, uint32_t *out, size_t out_count);

/* The grams of grease for a card of these bits: outside diameter times width, then times 0.005, in 64-bit floats, each step
 * rounded once. Done: out[0] is the low word of the grams' bits, a 64-bit float, and out[1] the high word. Needs no book.
 * Checks: 100 if out_count is below DEPOT_GRAMS_WORDS, 14. */
uint32_t depot_grams(uint32_t diameter, uint32_t width, uint32_t *out, size_t out_count);

/* A shelf's clock moves on by one, and a heartbeat goes on every link out. Checks: 1, 2, 3, 10, 9. */
uint32_t depot_tick(uint32_t *book, size_t words, uint32_t depot, uint32_t shelf);

/* The shelf of `depot` takes the first untaken message from depot `from`. Checks: 1, 2 for either depot, 3, 6, 7. */
uint32_t depot_take(uint32_t *book, size_t words, uint32_t depot, uint32_t shelf, uint32_t from);

/* The shelf raises its stable vector to the lowest stamps that the depot's shelves have seen, and shows what that covers.
 * Checks: 1, 2, 3. */
uint32_t depot_refresh(uint32_t *book, size_t words, uint32_t depot, uint32_t shelf);

/* Which depots now store a depot's present version of a bearing or a greater one. Looking changes no word of the book.
 * Checks: 100 if out_count is below DEPOT_WHO_WORDS, 1, 2, 4.
 * Done: bit d of out[0] is set if depot d has it, the depot itself among them; out[1] is how many bits are set. If what
 * the depot has is unwritten, all depots have it. No other element of `out` is written. */
uint32_t depot_who_has(const uint32_t *book, size_t words, uint32_t depot, uint32_t bearing, uint32_t *out, size_t out_count);

/* A crew reads a list of 1 to DEPOT_MOST_LISTED bearings at its home, at one moment: no answer rests on a write to another
 * bearing of the list that is above that bearing's own answer. `bearings` points to count numbers; the same may stand twice.
 * Checks: 100 if out_count is below DEPOT_LIST_WORDS, 1, 5, 15, 4.
 * Done: for the i-th of the list out[8 * i] to out[8 * i + 7] are as depot_read leaves them; all words up to DEPOT_LIST_WORDS
 * behind the last are 0. No other element of `out` is written. */
uint32_t depot_list(uint32_t *book, size_t words, uint32_t crew, const uint32_t *bearings, size_t count, uint32_t *out,
                    size_t out_count);

/* A crew gets a new home, `depot`. It is let in when every shelf there has seen what the crew has seen of every other depot,
 * so it reads there nothing lower than its past. To its present home it may always move; that changes nothing. One word of
 * the book moves. Checks: 1, 5, 2, 12. */
uint32_t depot_move(uint32_t *book, size_t words, uint32_t crew, uint32_t depot);

/* 1 if the book is fit, else 0. A book of the wrong length is not. */
uint32_t depot_is_fit(const uint32_t *book, size_t words);

/* Which of two version records is the greater: 1 if it is b, else 0, and a is the one to keep. The greater sum of
 * the first `depots` entries wins, then the first difference from depot 0 on, then the higher origin. An unwritten record,
 * these entries all 0, is never the greater, and one of another length than 9 words counts as unwritten. `depots` is 1 to
 * 4; for any other number the answer is 0. */
uint32_t depot_greater(const uint32_t *a, size_t a_words, const uint32_t *b, size_t b_words, uint32_t depots);

/* One line of the desk. `line` is the line without its line feed, any bytes. The answer, with its line feed, goes to the
 * start of `out`, no byte past it is written, and its length comes back. 0 is this function's answer for no
 * room: with out_length below DEPOT_ANSWER_BYTES nothing is done, and neither book nor `out` is written. */
size_t depot_line(uint32_t *book, size_t words, const uint8_t *line, size_t length, uint8_t *out, size_t out_length);

/* Frames for the radio link: docs/FRAMES.md has every byte. The book is only read. Besides the numbers above: */
enum depot_frame_answer {
    DEPOT_BAD_FRAME_COUNT = 101, /* the count is 0, over 16, or over what stands untaken */
    DEPOT_BAD_FRAME = 102,       /* the bytes are no frame of this link */
    DEPOT_OLD = 103,             /* the serial is 1 to 32,767 behind the expected one */
    DEPOT_GAP = 104              /* the serial is any other but the expected one */
};

/* The `count` oldest untaken messages of the link of a shelf from depot `from` to `depot`, as the frame with this serial.
 * Checks: 100 if out_count is 0, 1, 2 for either depot, 3, 6, 7, 101, 100 if the frame has more than `room` bytes.
 * Done: the frame stands in `frame` from its first byte on, no byte past it is written, and out[0] is how many it has. */
uint32_t depot_write_frame(const uint32_t *book, size_t words, uint32_t depot, uint32_t shelf, uint32_t from, uint32_t count,
                           uint16_t serial, uint8_t *frame, size_t room, uint32_t *out, size_t out_count);

/* Reads the `length` bytes of `frame`, any, as a frame of that link, where this serial is expected. Checks: 100 if out_count
 * is 0, 1, 2 for either depot, 3, 6, 102, 103, 104, 100 if `room` is below 10 for each message.
 * Done: the messages stand in `messages`, DEPOT_MESSAGE_WORDS each, no word past them is written, and out[0] is how many
 * there are. */
uint32_t depot_read_frame(const uint32_t *book, size_t words, uint32_t depot, uint32_t shelf, uint32_t from, uint16_t expected,
                          const uint8_t *frame, size_t length, uint32_t *messages, size_t room, uint32_t *out,
                          size_t out_count);

/* The journal: one record for each call that was done, from which the book is built again; docs/JOURNAL.md has every byte. A
 * record is of one of these kinds, and behind it come the call's numbers, in the order of the functions above: */
enum depot_kind {
    DEPOT_KIND_SETUP = 1,   /* depots, shelves, bearings, crews, the homes */
    DEPOT_KIND_READ = 2,    /* crew, bearing */
    DEPOT_KIND_WRITE = 3,   /* crew, bearing, value, diameter, width */
    DEPOT_KIND_TICK = 4,    /* depot, shelf */
    DEPOT_KIND_TAKE = 5,    /* depot, shelf, from */
    DEPOT_KIND_REFRESH = 6, /* depot, shelf */
    DEPOT_KIND_MOVE = 7,    /* crew, depot */
    DEPOT_KIND_LIST = 8     /* crew, the bearings */
};

enum depot_journal_answer {
    DEPOT_BAD_RECORD = 110, /* no kind, or not as many numbers as the kind has */
    DEPOT_CUT = 111,        /* depot_recover only: the bytes end inside a record */
    DEPOT_BAD_IMAGE = 112   /* depot_load_image only: the length or the header is not that of an image */
};

#define DEPOT_RECORD_BYTES 82    /* bytes of the longest record that a done call leaves */
#define DEPOT_RECORDED_WORDS 65  /* room that what depot_recorded tells takes in `out` */
#define DEPOT_RECOVERED_COUNTS 2 /* room that what depot_recover tells takes in `out` */
#define DEPOT_IMAGE_BYTES 65568  /* bytes of an image */

/* Makes a call and its record together: the call of this kind with these `count` numbers. Checks: 100 if out_count is below
 * DEPOT_RECORDED_WORDS, 110, 100 if the record has more than `room` bytes, then those of the call. A refusal changes no word
 * of the book, of `out` and no byte of `record`.
 * Done: the record stands in `record` from its first byte on, no byte past it is written, and out[0] is how many it has.
 * From out[1] on the answer stands as depot_read, depot_write or depot_list leaves it, and 0 behind it up to out[64]; of any
 * other call 0. No other element of `out` is written. Append the record to the journal, have it on the disk, and only then
 * give the answer away. */
uint32_t depot_recorded(uint32_t *book, size_t words, uint32_t kind, const uint32_t *numbers, size_t count, uint8_t *record,
                        size_t room, uint32_t *out, size_t out_count);

/* Recovers the `length` bytes of a journal, any bytes, on top of this book: one of zeros, or an image's. Record after record
 * is done, up to the first that is not whole or is refused. Answers how it ended: 0 if the bytes end with a record, or there
 * are none; DEPOT_CUT; a fault, DEPOT_BAD_RECORD or the number with which the record's call is refused. The book is that
 * after the records done; out[0] is how many these are, and out[1] how many bytes they have. After 0 and DEPOT_CUT more bytes
 * may follow: call again with the bytes behind those out[1], and the new ones behind them. DEPOT_NO_ROOM if out_count is
 * below DEPOT_RECOVERED_COUNTS; then nothing is done. */
uint32_t depot_recover(uint32_t *book, size_t words, const uint8_t *bytes, size_t length, uint64_t *out, size_t out_count);

/* Saves a fit book as an image into the first DEPOT_IMAGE_BYTES bytes of `image`. Checks: 1, 100 if `room` is below
 * DEPOT_IMAGE_BYTES. */
uint32_t depot_save_image(const uint32_t *book, size_t words, uint8_t *image, size_t room);

/* Loads an image, any bytes, into the book. Checks: 100 if the book has not DEPOT_BOOK_WORDS words, 112, 1 if the image's
 * book is not fit. What an image says of the past is taken on trust. The image's words are judged before one of the book moves:
 * that takes 64 KiB of stack. */
uint32_t depot_load_image(uint32_t *book, size_t words, const uint8_t *image, size_t length);

/* The calendar: the dates from 1 January 2000, which is day 0, to 31 December 2399. Months are 1 to 12. Any numbers get an
 * answer. A refusal, any number but 0, writes nothing to `out`. DEPOT_NO_ROOM is one, checked first. No element past the
 * answer is written. */
enum depot_date_answer {
    DEPOT_DATE_GIVEN = 0,
    DEPOT_NO_SUCH_DATE = 1, /* there is no such date */
    DEPOT_BAD_STEP = 2,     /* the step is not 1 to 120 months */
    DEPOT_BAD_COUNT = 3,    /* the count is 0 */
    DEPOT_TOO_LATE = 4      /* the result lies after 2399; so does a day past DEPOT_LAST_DAY */
};

/* 1 if there is such a date, else 0. */
uint32_t depot_is_date(uint32_t year, uint32_t month, uint32_t day);

/* The day number of a date. Given: out[0] is the number. Checks: 100 if out_count is below DEPOT_NUMBER_WORDS, 1. */
uint32_t depot_day_number(uint32_t year, uint32_t month, uint32_t day, uint32_t *out, size_t out_count);

/* The date of a day number. Given: out[0] is the year, out[1] the month, out[2] the day. Checks: 100 if out_count is below
 * DEPOT_DATE_WORDS, 4. */
uint32_t depot_date_of(uint32_t day, uint32_t *out, size_t out_count);

/* The n-th date after an anchor, in steps of `step` months: the anchor's day, or the month's last day where that month is
 * shorter. It is counted from the anchor, never from a shortened date. Checks: 100 if out_count is below
 * DEPOT_NEXT_WORDS, 1, 2, 3, 4.
 * Given: out[0] is the year, out[1] the month, out[2] the day, out[3] the day number. */
uint32_t depot_next_date(uint32_t year, uint32_t month, uint32_t day, uint32_t step, uint32_t n, uint32_t *out,
                         size_t out_count);

/* The auditor: whether a history of reads and writes is causal. It needs no book; docs/AUDIT.md says what is looked for. A history is
 * DEPOT_ENTRY_WORDS words an entry, each crew's entries in its own order: the kind, 0 a write and 1 a read; the crew; then a version
 * record with four entries, 0 past the depots. Any words get an answer, in this order: too many, bad length, refused, circle, low,
 * causal. It is one number: DEPOT_AUDIT_ANSWER of it is the answer, and DEPOT_AUDIT_ENTRY of it the entry that is named, counted
 * from 0, or 0 where none is. */
enum depot_audit_answer {
    DEPOT_CAUSAL = 0,           /* nothing is wrong */
    DEPOT_TOO_MANY_ENTRIES = 1, /* more than DEPOT_MOST_ENTRIES entries: nothing else was looked at */
    DEPOT_BAD_LENGTH = 2,       /* the words are no whole number of entries */
    DEPOT_REFUSED_ENTRY = 3,    /* the lowest entry that no history has */
    DEPOT_CIRCLE = 4,           /* the first entry that rests on itself */
    DEPOT_LOW_READ = 5          /* the first read that is lower than a write to its bearing in its past */
};

#define DEPOT_ENTRY_WORDS 11   /* words of an entry */
#define DEPOT_MOST_ENTRIES 256 /* the most entries of a history */
#define DEPOT_AUDIT_ANSWER(number) ((number) % 256u)
#define DEPOT_AUDIT_ENTRY(number) ((number) / 256u)

uint32_t depot_audit(const uint32_t *history, size_t words);

#ifdef __cplusplus
}
#endif

#endif
