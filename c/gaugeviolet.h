/* Gaugeviolet for C and C++: the functions of the proved static library that `tools/staticlib screen` writes to
 * target/staticlib/libscreen.a. Reading, rewriting and checking are also in target/staticlib/libservice.a, which
 * `tools/staticlib service` writes: the checking service without the search. A program links one of the two.
 *
 * Lent bytes are passed as a pointer and a length; so are lent entries of a greater type, of which the length counts
 * the entries. No function asks for anything of their content: whatever stands in them, each call keeps within them and
 * returns. What the caller answers for:
 *   - the pointer is to as many bytes or entries as the length says, all of them initialised and aligned for their type;
 *     it is not null, not even for length 0;
 *   - `out` or `totals` overlaps nothing else that is lent to the same call (the other lent bytes may overlap each other);
 *   - nobody else writes to what is lent, or reads `out` or `totals`, until the call returns;
 *   - gaugeviolet_solve, gaugeviolet_walk_length and gaugeviolet_starts recurse: call them with 6 MB of stack left.
 *
 * Each answer is one number: see gaugeviolet_number and gaugeviolet_value. */
#ifndef GAUGEVIOLET_H
#define GAUGEVIOLET_H

#include <stddef.h>
#include <stdint.h>

#ifdef __cplusplus
extern "C" {
#endif

/* The most bytes that a line file or a timetable may have. As many lent bytes hold the text of every line, of every
 * timetable and of its stop times. */
#define GAUGEVIOLET_TEXT_BYTES 4096

/* The most minutes that gaugeviolet_starts takes. */
#define GAUGEVIOLET_STARTS_MOST 24

/* What gaugeviolet_starts fills in where there is no timetable. No total is as great. */
#define GAUGEVIOLET_NO_TIMETABLE UINT32_C(4294967295)

/* Reads a line file: value 0, or refused with 1 to 4 or 19. */
uint64_t gaugeviolet_read(const uint8_t *file, size_t file_len);

/* Reads a line file and writes its line out again to the front of `out`: the length of the text, or refused as by
 * gaugeviolet_read, then with 6 where `out` has fewer bytes than the text. */
uint64_t gaugeviolet_rewrite(const uint8_t *file, size_t file_len, uint8_t *out, size_t out_len);

/* Checks a timetable against its line file: value 0, or refused as by gaugeviolet_read, then with 7 to 18. */
uint64_t gaugeviolet_check(const uint8_t *file, size_t file_len, const uint8_t *timetable, size_t timetable_len);

/* Solves a line file and writes its best timetable to the front of `out`: the length of the text, or refused as by
 * gaugeviolet_read, then with 5 where no timetable keeps every rule, then with 6. */
uint64_t gaugeviolet_solve(const uint8_t *file, size_t file_len, uint8_t *out, size_t out_len);

/* The length of the walk of request K9 on a line file: how many plans it takes up, cut off at 4,294,967,295, or refused
 * as by gaugeviolet_read. For tests and measurements: on a busy day the walk does not end in reasonable time. */
uint64_t gaugeviolet_walk_length(const uint8_t *file, size_t file_len);

/* Writes a timetable as stop times for journey planners (stop_times.txt of GTFS) to the front of `out`: the length of the
 * text, or refused as by gaugeviolet_read, then with 7 to 9 where the timetable's text is not one of the line, then with
 * 6. The rules, the order lists and the total are not tested. */
uint64_t gaugeviolet_export(const uint8_t *file, size_t file_len, const uint8_t *timetable, size_t timetable_len,
                            uint8_t *out, size_t out_len);

/* Reads stop times back for a line file and writes what a timetable begins with, the train count and a line of minutes
 * for each train, to the front of `out`: the length of this text, or refused as by gaugeviolet_read, then with 20 or 21
 * and the first line of the stop times that is wrong, then with 6. */
uint64_t gaugeviolet_import(const uint8_t *file, size_t file_len, const uint8_t *stop_times, size_t stop_times_len,
                            uint8_t *out, size_t out_len);

/* Solves a line file once for each of the rising `minutes`, with the earliest departure of a train, by its number from 1,
 * altered to it. The front of `totals` becomes the total weighted delay of each, or GAUGEVIOLET_NO_TIMETABLE; entries
 * past the minutes keep what they held. Value 0, or refused as by gaugeviolet_read, then with 22 where there is no
 * minute, more than GAUGEVIOLET_STARTS_MOST, one that is not greater than the one before or is past 2,879, where
 * `totals` has fewer entries than there are minutes, or where the file has no such train. */
uint64_t gaugeviolet_starts(const uint8_t *file, size_t file_len, uint32_t train, const uint16_t *minutes,
                            size_t minutes_len, uint32_t *totals, size_t totals_len);

/* The number of a refusal, and 0 where nothing is refused. Where it is not 0, nothing that was lent has changed. */
static inline uint32_t gaugeviolet_number(uint64_t answer) { return (uint32_t)(answer >> 32); }

/* The place of a refusal; where nothing is refused, the length of what was written, or of the walk. */
static inline uint32_t gaugeviolet_value(uint64_t answer) { return (uint32_t)answer; }

#ifdef __cplusplus
}
#endif

#endif
