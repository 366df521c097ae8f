/* A bearing moves to a new motor: a story with two depots, written from depot_register.h alone.
 *
 * Depot 0 looks after the pump house, depot 1 after the mill. Bearing 0 is the bearing itself: its entry is the day of its
 * next greasing. Bearing 1 is the motor's own sheet: its entry is the day from which the motor is in use. The two lie on
 * different shelves, so the boxes may bring them over in any order. The register never shows the bearing's new day
 * without what it rests on.
 */
#include <stdio.h>
#include <stdlib.h>
#include <string.h>

#include "depot_register.h"

enum { PUMP_HOUSE = 0, MILL = 1 };            /* depots */
enum { PUMP_CREW = 0, MILL_CREW = 1 };        /* crews */
enum { BEARING = 0, MOTOR = 1, BEARINGS = 4 }; /* bearings */
enum { BEARING_SHELF = 0, MOTOR_SHELF = 1, SHELVES = 2 };

static uint32_t book[DEPOT_BOOK_WORDS];

/* Ends the story if something is not as told. */
static void expect(uint32_t found, uint32_t told, const char *what) {
    if (found != told) {
        fprintf(stderr, "example: %s: %lu, and not %lu\n", what, (unsigned long)found, (unsigned long)told);
        exit(1);
    }
}

/* A card: outside diameter and width in millimetres. */
struct card {
    float diameter, width;
};

static const struct card bearing_card = {52.0f, 15.0f}, motor_card = {47.0f, 14.0f};

/* The bits of a float, as a book has them. */
static uint32_t bits(float length) {
    uint32_t word;
    memcpy(&word, &length, sizeof word);
    return word;
}

/* The grams of grease for a card's bits. */
static double grams(uint32_t diameter, uint32_t width) {
    uint32_t out[DEPOT_GRAMS_WORDS];
    uint64_t word;
    double found;
    expect(depot_grams(diameter, width, out, DEPOT_GRAMS_WORDS), DEPOT_DONE, "grams");
    word = out[0] | (uint64_t)out[1] << 32;
    memcpy(&found, &word, sizeof found);
    return found;
}

static uint32_t asks(uint32_t crew, uint32_t bearing, uint32_t day, struct card card, uint32_t *out) {
    return depot_write(book, DEPOT_BOOK_WORDS, crew, bearing, day, bits(card.diameter), bits(card.width), out,
                       DEPOT_WRITE_WORDS);
}

static void writes(uint32_t crew, uint32_t bearing, uint32_t day, struct card card, uint32_t stamp) {
    uint32_t out[DEPOT_WRITE_WORDS];
    expect(asks(crew, bearing, day, card, out), DEPOT_DONE, "write");
    expect(out[0], stamp, "stamp");
    expect(out[1], 1, "current");
}

/* Prints what a crew finds, and expects it: written or not, the day, and the card. */
static void reads(const char *who, uint32_t crew, const char *what, uint32_t bearing, uint32_t written, uint32_t day,
                  struct card card) {
    uint32_t out[DEPOT_READ_WORDS];
    expect(depot_read(book, DEPOT_BOOK_WORDS, crew, bearing, out, DEPOT_READ_WORDS), DEPOT_DONE, "read");
    if (out[0]) {
        printf("  %s reads %s: day %lu, %g by %g mm, %.2f g of grease, vector (%lu, %lu)\n", who, what, (unsigned long)out[1],
               card.diameter, card.width, grams(out[2], out[3]), (unsigned long)out[4], (unsigned long)out[5]);
        expect(out[2], bits(card.diameter), "diameter");
        expect(out[3], bits(card.width), "width");
    } else {
        printf("  %s reads %s: unwritten\n", who, what);
    }
    expect(out[0], written, what);
    expect(out[1], day, what);
}

/* The mill takes all that stands on a shelf's link from the pump house, and refreshes the shelf. */
static void brings_over(uint32_t shelf) {
    uint32_t answer;
    do {
        answer = depot_take(book, DEPOT_BOOK_WORDS, MILL, shelf, PUMP_HOUSE);
    } while (answer == DEPOT_DONE);
    expect(answer, DEPOT_EMPTY_LINK, "take");
    expect(depot_refresh(book, DEPOT_BOOK_WORDS, MILL, shelf), DEPOT_DONE, "refresh");
}

/* Prints the n-th date after 31 January 2023, monthly, and expects it. */
static void falls_on(uint32_t n, uint32_t month, uint32_t day, uint32_t number) {
    uint32_t out[DEPOT_NEXT_WORDS];
    expect(depot_next_date(2023, 1, 31, 1, n, out, DEPOT_NEXT_WORDS), DEPOT_DATE_GIVEN, "next date");
    printf("  next date %lu: %lu-%02lu-%02lu, day %lu\n", (unsigned long)n, (unsigned long)out[0], (unsigned long)out[1],
           (unsigned long)out[2], (unsigned long)out[3]);
    expect(out[0], 2023, "year");
    expect(out[1], month, "month");
    expect(out[2], day, "day");
    expect(out[3], number, "day number");
}

/* A call and its record, at the end of a journal. Nothing but the journal need be kept. */
static uint32_t recorded(uint32_t kind, const uint32_t *numbers, size_t count, uint8_t *journal, size_t room, size_t *length) {
    uint32_t out[DEPOT_RECORDED_WORDS];
    uint32_t answer = depot_recorded(book, DEPOT_BOOK_WORDS, kind, numbers, count, journal + *length, room - *length, out,
                                     DEPOT_RECORDED_WORDS);
    if (answer == DEPOT_DONE) *length += out[0];
    return answer;
}

/* The power goes: of the book nothing is left, and of the journal all but the end of its last record. */
static void the_power_goes(void) {
    static uint8_t journal[1000], image[DEPOT_IMAGE_BYTES];
    const uint32_t setup[] = {2, SHELVES, BEARINGS, 2, PUMP_HOUSE, MILL};
    const uint32_t write[] = {PUMP_CREW, MOTOR, 9131, bits(motor_card.diameter), bits(motor_card.width)};
    const uint32_t tick[] = {PUMP_HOUSE, BEARING_SHELF}, strange[] = {7, 0}, read[] = {PUMP_CREW, MOTOR};
    uint64_t told[DEPOT_RECOVERED_COUNTS];
    size_t length = 0;

    expect(recorded(DEPOT_KIND_SETUP, setup, 6, journal, sizeof journal, &length), DEPOT_DONE, "setup with its record");
    expect(recorded(DEPOT_KIND_WRITE, write, 5, journal, sizeof journal, &length), DEPOT_DONE, "write with its record");
    expect(recorded(DEPOT_KIND_TICK, strange, 2, journal, sizeof journal, &length), DEPOT_BAD_DEPOT, "refused, no record");
    expect(recorded(DEPOT_KIND_TICK, tick, 2, journal, sizeof journal, &length), DEPOT_DONE, "tick with its record");
    expect((uint32_t)length, 26 + 21 + 9, "bytes of the journal");

    memset(book, 0, sizeof book);
    expect(depot_recover(book, DEPOT_BOOK_WORDS, journal, length - 1, told, DEPOT_RECOVERED_COUNTS), DEPOT_CUT, "cut");
    printf("  of %lu bytes %lu are left: %lu records, %lu bytes\n", (unsigned long)length, (unsigned long)length - 1,
           (unsigned long)told[0], (unsigned long)told[1]);
    expect((uint32_t)told[0], 2, "records that are whole");
    expect((uint32_t)told[1], 26 + 21, "their bytes");
    reads("the pump crew", PUMP_CREW, "the motor", MOTOR, 1, 9131, motor_card);

    expect(depot_save_image(book, DEPOT_BOOK_WORDS, image, sizeof image), DEPOT_DONE, "image saved");
    memset(book, 0, sizeof book);
    expect(depot_load_image(book, DEPOT_BOOK_WORDS, image, sizeof image), DEPOT_DONE, "image loaded");
    length = 0; /* a new journal goes on from the image, without a setup */
    expect(recorded(DEPOT_KIND_READ, read, 2, journal, sizeof journal, &length), DEPOT_DONE, "read with its record");
    expect(depot_load_image(book, DEPOT_BOOK_WORDS, image, sizeof image - 1), DEPOT_BAD_IMAGE, "a shorter image");
    journal[0] = 9;
    expect(depot_recover(book, DEPOT_BOOK_WORDS, journal, length, told, DEPOT_RECOVERED_COUNTS), DEPOT_BAD_RECORD, "no kind");
}

int main(void) {
    const uint32_t homes[2] = {PUMP_HOUSE, MILL};
    const uint32_t both[2] = {BEARING, MOTOR};
    const char *line = "R 1 0";
    uint8_t answer[DEPOT_ANSWER_BYTES];
    uint32_t out[DEPOT_LIST_WORDS]; /* the longest of the answers below */
    size_t length;
    const uint32_t history[2 * DEPOT_ENTRY_WORDS] = {
        0, 0, 0, 9200, 1, 1, 0, 1, 0, 0, 0, /* a write: crew 0, bearing 0, day 9200, a card, origin 0, the vector */
        1, 0, 0, 0, 0, 0, 0, 0, 0, 0, 0     /* a read: crew 0, bearing 0, unwritten */
    };

    expect(depot_setup(book, DEPOT_BOOK_WORDS, 2, SHELVES, BEARINGS, 2, homes, 2), DEPOT_DONE, "setup");
    expect(depot_is_fit(book, DEPOT_BOOK_WORDS), 1, "fit");

    puts("The pump crew puts the new motor to use on day 9131, then greases its bearing: next on day 9200.");
    writes(PUMP_CREW, MOTOR, 9131, motor_card, 1);
    expect(asks(PUMP_CREW, BEARING, 9200, bearing_card, out), DEPOT_WAIT, "write too early");
    puts("  The bearing's shelf is behind what the crew has seen: WAIT. It ticks, and the write passes.");
    expect(depot_tick(book, DEPOT_BOOK_WORDS, PUMP_HOUSE, BEARING_SHELF), DEPOT_DONE, "tick");
    writes(PUMP_CREW, BEARING, 9200, bearing_card, 2);
    reads("the pump crew", PUMP_CREW, "the bearing", BEARING, 1, 9200, bearing_card);

    puts("The bearing's shelf reaches the mill first. Nobody there sees a bearing on a motor they have not heard of.");
    brings_over(BEARING_SHELF);
    reads("the mill crew", MILL_CREW, "the bearing", BEARING, 0, 0, bearing_card);

    puts("Then the motor's shelf arrives, with a tick that says: nothing older is on its way.");
    expect(depot_tick(book, DEPOT_BOOK_WORDS, PUMP_HOUSE, MOTOR_SHELF), DEPOT_DONE, "tick");
    brings_over(MOTOR_SHELF);
    expect(depot_refresh(book, DEPOT_BOOK_WORDS, MILL, BEARING_SHELF), DEPOT_DONE, "refresh");
    reads("the mill crew", MILL_CREW, "the bearing", BEARING, 1, 9200, bearing_card);
    reads("the mill crew", MILL_CREW, "the motor", MOTOR, 1, 9131, motor_card);

    puts("A list of both is read at one moment.");
    expect(depot_list(book, DEPOT_BOOK_WORDS, MILL_CREW, both, 2, out, DEPOT_LIST_WORDS), DEPOT_DONE, "list");
    printf("  the mill crew reads day %lu and day %lu\n", (unsigned long)out[1], (unsigned long)out[DEPOT_READ_WORDS + 1]);
    expect(out[1], 9200, "the bearing's day");
    expect(out[DEPOT_READ_WORDS + 1], 9131, "the motor's day");

    puts("A line of the desk asks the same.");
    length = depot_line(book, DEPOT_BOOK_WORDS, (const uint8_t *)line, strlen(line), answer, sizeof answer);
    printf("  %s -> %.*s", line, (int)length, (const char *)answer);
    expect(length == 33 && memcmp(answer, "0 9200 1112539136 1097859072 2 0\n", 33) == 0, 1, "line");

    puts("The calendar: monthly from 31 January 2023, each counted from the anchor.");
    falls_on(1, 2, 28, 8459);
    falls_on(2, 3, 31, 8490);
    expect(depot_is_date(2023, 2, 29), 0, "29 February 2023");
    expect(depot_day_number(2023, 2, 29, out, DEPOT_NUMBER_WORDS), DEPOT_NO_SUCH_DATE, "its day number");
    expect(depot_date_of(DEPOT_LAST_DAY + 1, out, DEPOT_DATE_WORDS), DEPOT_TOO_LATE, "1 January 2400");

    puts("The auditor: crew 0 writes a date and is then told that there is none.");
    expect(depot_audit(history, DEPOT_ENTRY_WORDS), DEPOT_CAUSAL, "the write alone");
    expect(DEPOT_AUDIT_ANSWER(depot_audit(history, 2 * DEPOT_ENTRY_WORDS)), DEPOT_LOW_READ, "then a read of nothing");
    expect(DEPOT_AUDIT_ENTRY(depot_audit(history, 2 * DEPOT_ENTRY_WORDS)), 1, "which is entry 1");

    puts("The power goes. A journal gives the book back, up to its last whole record.");
    the_power_goes();

    puts("What is wrong is refused by number, and changes nothing.");
    expect(depot_tick(book, DEPOT_BOOK_WORDS, 7, 0), DEPOT_BAD_DEPOT, "bad depot");
    expect(asks(MILL_CREW, BEARING, DEPOT_LAST_DAY + 1, bearing_card, out), DEPOT_BAD_DATE, "a day beyond the calendar");
    expect(asks(MILL_CREW, BEARING, 9200, (struct card){52.0f, 0.0f}, out), DEPOT_BAD_CARD, "no width");
    expect(depot_grams(bits(2000.5f), bits(15.0f), out, DEPOT_GRAMS_WORDS), DEPOT_BAD_CARD, "grams of no card");
    expect(depot_read(book, DEPOT_BOOK_WORDS - 1, MILL_CREW, BEARING, out, DEPOT_READ_WORDS), DEPOT_BAD_BOOK, "short book");
    expect(depot_read(NULL, 0, MILL_CREW, BEARING, out, DEPOT_READ_WORDS), DEPOT_BAD_BOOK, "no book");
    expect(depot_read(book, DEPOT_BOOK_WORDS, MILL_CREW, BEARING, NULL, 0), DEPOT_NO_ROOM, "no room for the answer");
    expect(depot_date_of(0, out, DEPOT_DATE_WORDS - 1), DEPOT_NO_ROOM, "no room for a date");
    expect(depot_is_fit(book, DEPOT_BOOK_WORDS), 1, "fit");
    puts("example: all as told, by the depot register " DEPOT_REGISTER_VERSION);
    return 0;
}
