/* Olovrant: the library's functions for C.
 *
 * Slices. A slice is a pointer and a length in bytes. `file` is a timetable file and `text` is stop_times.txt of GTFS: each of their bytes
 * counts. Every other slice is an area of numbers of 16 bits, low byte first: it may start at any address and have any length, and an
 * odd last byte is neither counted nor changed. A null pointer with length 0 is an empty slice. The slices of a call must not
 * overlap: that is the caller's duty. Whatever the bytes hold, each function answers or refuses; it reads and writes nothing outside
 * the slices. A connection is called a ride in the names here.
 *
 * Refusals. A refused call writes nothing; refusal 30 alone fills `work`, as an answer does. An accepted call writes no more than the
 * stated length of an area (the sizes below), of `journey` no more than the journey has, and of what an import or an export makes no more
 * than the bytes it answers.
 *
 * Numbers. Parameters are of 16 bits, and C cuts a larger argument down without a word: check before the call that a number is at
 * most 65535.
 *
 * Threads. A call uses its arguments and its stack, and nothing else: no state is kept and no memory allocated. Calls on different
 * areas may run at the same time. Calls that share an area that one of them writes need the caller's lock; a shared file and
 * areas that are only read need none.
 *
 * Stack. A call needs at most TTG_STACK_BYTES of stack. tests/panel/stack.c measures it with the largest timetable.
 *
 * Linking. The library needs memcpy and memset, and nothing else.
 */
#ifndef TTG_H
#define TTG_H

#include <stddef.h>
#include <stdint.h>

#ifdef __cplusplus
extern "C" {
#endif

/* The most stops and rides of a timetable. */
#define TTG_MOST_STOPS 500
#define TTG_MOST_RIDES 2000

/* Sizes in bytes. A shorter area is refused; in a longer one nothing past these sizes is changed. */
#define TTG_FILE_BYTES(stops, rides) (9 + 2 * (size_t)(stops) + 10 * (size_t)(rides))
#define TTG_NOTICES_BYTES ((size_t)1202)
#define TTG_GRAPH_BYTES(stops, rides) (2 * (4 * (size_t)(rides) + (size_t)(stops)))
#define TTG_WORK_BYTES(rides) (2 * (size_t)(rides))
#define TTG_JOURNEY_BYTES(rides) (2 * (size_t)(rides))

/* For imports and exports: change minutes for so many stops; room for the text of every timetable; the longest text that is accepted. */
#define TTG_CHANGE_BYTES(stops) (2 * (size_t)(stops))
#define TTG_TEXT_BYTES ((size_t)113838)
#define TTG_LONGEST_TEXT ((size_t)144058)

/* The stack that a call needs at most. */
#define TTG_STACK_BYTES ((size_t)65536)

/* No ride: in `work`, a ride that no journey ends with; in `graph`, no further departure. */
#define TTG_NONE 65535

/* Every answer is number + 65536 * value. The number is TTG_ACCEPTED, or the refusal's with its place for a value. */
#define TTG_NUMBER(answer) ((unsigned)((uint64_t)(answer) % 65536))
#define TTG_VALUE(answer) ((uint64_t)(answer) / 65536)
#define TTG_PLACE(answer) ((unsigned)TTG_VALUE(answer))

/* The place of refusal 31. Rows, and the bytes of an export, can be more than 65535. */
#define TTG_ROW(answer) ((size_t)TTG_VALUE(answer))

/* The values of accepted calls: of a check or a build; of a posting or a withdrawal; of an enquiry; of a margin; of why; of an import or
 * an export. */
#define TTG_STOPS(answer) ((unsigned)(TTG_VALUE(answer) % 65536))
#define TTG_RIDES(answer) ((unsigned)(TTG_VALUE(answer) / 65536))
#define TTG_NOTICE(answer) ((unsigned)TTG_VALUE(answer))
#define TTG_ARRIVAL(answer) ((unsigned)(TTG_VALUE(answer) % 65536))
#define TTG_COUNT(answer) ((unsigned)(TTG_VALUE(answer) / 65536))
#define TTG_MINUTES(answer) ((int)((int64_t)(answer) / 65536))
#define TTG_DELAY(answer) ((unsigned)(TTG_VALUE(answer) % 65536))
#define TTG_CAUSE(answer) ((unsigned)(TTG_VALUE(answer) / 65536))
#define TTG_BYTES(answer) ((size_t)TTG_VALUE(answer))

/* The number at place `index` of an area. */
#define TTG_AT(area, index) ((unsigned)((area)[2 * (size_t)(index)] + 256 * (area)[2 * (size_t)(index) + 1]))

/* The numbers of answers. */
enum ttg_number {
    TTG_ACCEPTED = 0,
    TTG_REFUSED_SHORT_FILE = 1,       /* the file has fewer than 9 bytes */
    TTG_REFUSED_MARK = 2,             /* it does not start with TTG */
    TTG_REFUSED_VERSION = 3,          /* its version */
    TTG_REFUSED_STOP_COUNT = 4,       /* its stop count */
    TTG_REFUSED_RIDE_COUNT = 5,       /* its ride count */
    TTG_REFUSED_LENGTH = 6,           /* its length is not the one of its counts */
    TTG_REFUSED_CHANGE_MINUTES = 7,   /* change minutes above 60; place: the stop */
    TTG_REFUSED_RIDE_STOPS = 8,       /* a ride's stops; place, to 11: the ride */
    TTG_REFUSED_TRIP = 9,             /* its trip */
    TTG_REFUSED_TIMES = 10,           /* its times */
    TTG_REFUSED_JOIN = 11,            /* it does not join the one before it */
    TTG_REFUSED_NUMBER_0 = 12,        /* notice number 0 */
    TTG_REFUSED_RIDE = 13,            /* no such ride */
    TTG_REFUSED_DELAY = 14,           /* a delay outside 1 to 1440 */
    TTG_REFUSED_STOP = 15,            /* no such stop */
    TTG_REFUSED_TIME = 16,            /* a time after 5759 */
    TTG_REFUSED_NOT_MET = 17,         /* the two rides of a margin do not meet at a stop */
    TTG_REFUSED_COMMAND = 18,         /* the desk program's alone: no function answers it */
    TTG_REFUSED_SHORT_NOTICES = 21,   /* `notices` is too short */
    TTG_REFUSED_SHORT_GRAPH = 22,     /* `graph` is too short */
    TTG_REFUSED_NOTICES = 23,         /* `notices` breaks its rules; place: the first wrong row, from 1, or 0 for the count */
    TTG_REFUSED_GRAPH = 24,           /* `graph` is not that of this timetable and these notices */
    TTG_REFUSED_STANDS = 25,          /* a notice of this number stands for another ride */
    TTG_REFUSED_FULL = 26,            /* 200 notices stand, none of this number */
    TTG_REFUSED_STANDS_NOT = 27,      /* no notice of this number stands */
    TTG_REFUSED_SHORT_WORK = 28,      /* `work` is too short */
    TTG_REFUSED_SHORT_JOURNEY = 29,   /* `journey` is too short */
    TTG_REFUSED_NO_JOURNEY = 30,      /* there is no journey */
    TTG_REFUSED_ROW = 31,             /* a row of `text`; place, by TTG_ROW: the row, from 1, or 0 for the header */
    TTG_REFUSED_SHORT_OUTPUT = 32     /* what is to be written does not fit its slice */
};

/* Checks a timetable file. Accepted: TTG_STOPS, TTG_RIDES. */
uint64_t ttg_check(const uint8_t *file, size_t file_len);

/* Zeroes the notice area and fills the graph of the timetable without notices. Accepted: TTG_STOPS, TTG_RIDES. */
uint64_t ttg_build(const uint8_t *file, size_t file_len, uint8_t *notices, size_t notices_len, uint8_t *graph, size_t graph_len);

/* Posts notice `number`: ride `ride` is `delay` minutes late. If the number stands for this ride, the delay replaces the old one.
   Accepted: TTG_NOTICE. */
uint64_t ttg_post(const uint8_t *file, size_t file_len, uint8_t *notices, size_t notices_len, uint8_t *graph, size_t graph_len,
                  uint16_t number, uint16_t ride, uint16_t delay);

/* Withdraws notice `number`. Accepted: TTG_NOTICE. */
uint64_t ttg_withdraw(const uint8_t *file, size_t file_len, uint8_t *notices, size_t notices_len, uint8_t *graph, size_t graph_len,
                      uint16_t number);

/* Finds the journey from stop `from` to stop `to` at `time` that arrives first. Accepted: TTG_ARRIVAL, TTG_COUNT; `journey` begins with
 * so many rides in the order of travel, `work` with the predecessor of each ride: itself if it can be the first, TTG_NONE if no
 * journey ends with it. Refusal 30 (no journey) fills `work` too. */
uint64_t ttg_enquire(const uint8_t *file, size_t file_len, const uint8_t *notices, size_t notices_len, const uint8_t *graph,
                     size_t graph_len, uint8_t *work, size_t work_len, uint8_t *journey, size_t journey_len, uint16_t from,
                     uint16_t to, uint16_t time);

/* The margin of a change from ride `ride` to ride `next`. Accepted: TTG_MINUTES, signed: 0 is just made, -1 is missed by a minute. The
 * answer is negative only where the margin is. */
int64_t ttg_margin(const uint8_t *file, size_t file_len, const uint8_t *notices, size_t notices_len, const uint8_t *graph,
                   size_t graph_len, uint16_t ride, uint16_t next);

/* Tells why ride `ride` is late: its own delay and the notice that gives it. Accepted: TTG_DELAY, the largest delay of the notices that
 * stand for this ride, and TTG_CAUSE, the lowest number of those that have it; 0 and 0 if none stands. A delay that the ride before it in
 * its trip passes on is not told. */
uint64_t ttg_why(const uint8_t *file, size_t file_len, const uint8_t *notices, size_t notices_len, uint16_t ride);

/* Makes the timetable file of a stop_times.txt. `text` has the columns trip_id, arrival_time, departure_time, stop_id, stop_sequence in this
 * order, without quotes, and each of its lines ends with a newline; docs/PANEL.md says how they are to be written. `change` has the change
 * minutes of each stop, and so its length says how many stops there are; a stop_id is a place in it. Accepted: TTG_BYTES, how many bytes
 * of `file` it wrote, which is TTG_FILE_BYTES of the counts. Refused with 31 at the first row that is not so, else at the first row alone
 * in its trip; with 4, 5, 7, 8, 10 or 11 if the file would not be accepted; with 32 if it does not fit. */
uint64_t ttg_import(const uint8_t *text, size_t text_len, const uint8_t *change, size_t change_len, uint8_t *file, size_t file_len);

/* Writes the stop_times.txt of a timetable file. Accepted: TTG_BYTES, how many bytes of `text` it wrote, at most TTG_TEXT_BYTES. With the
 * file's change minutes the import of that text gives the same file again. Refused as a check is, then with 32 if the text does not fit. */
uint64_t ttg_export(const uint8_t *file, size_t file_len, uint8_t *text, size_t text_len);

#ifdef __cplusplus
}
#endif

#endif
