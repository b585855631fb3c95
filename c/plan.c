/* Plans the line file on standard input from C: prints its best timetable, or 'refused n p'. It calls every function of
 * the library but that of the walk: the file is read, written again and compared, solved, and its total compared with
 * that of train 1 from its own earliest minute; before the timetable is printed it is checked, exported as stop times and
 * compared with what is imported from them. The exit status is 0 for both, and 1 where the library contradicts itself or
 * the input cannot be read. */
#include <inttypes.h>
#include <stdio.h>
#include <string.h>

#include "gaugeviolet.h"

static int fail(const char *why) {
    fprintf(stderr, "plan: %s\n", why);
    return 1;
}

static int print_refusal(uint64_t answer) {
    printf("refused %lu %lu\n", (unsigned long)gaugeviolet_number(answer), (unsigned long)gaugeviolet_value(answer));
    return 0;
}

/* Whether an accepted file is written out again as it stands. */
static int same_again(const uint8_t *file, size_t file_len) {
    uint8_t out[GAUGEVIOLET_TEXT_BYTES] = {0};
    uint64_t answer = gaugeviolet_rewrite(file, file_len, out, sizeof out);
    return gaugeviolet_number(answer) == 0 && gaugeviolet_value(answer) == file_len && memcmp(out, file, file_len) == 0;
}

/* Whether a timetable's stop times give its minutes back: the train count and the train lines, with which it begins. */
static int same_minutes(const uint8_t *file, size_t file_len, const uint8_t *timetable, size_t timetable_len) {
    uint8_t stop_times[GAUGEVIOLET_TEXT_BYTES] = {0}, out[GAUGEVIOLET_TEXT_BYTES] = {0};
    uint64_t answer = gaugeviolet_export(file, file_len, timetable, timetable_len, stop_times, sizeof stop_times);
    if (gaugeviolet_number(answer) != 0) return 0;
    answer = gaugeviolet_import(file, file_len, stop_times, gaugeviolet_value(answer), out, sizeof out);
    size_t length = gaugeviolet_value(answer);
    return gaugeviolet_number(answer) == 0 && length <= timetable_len && memcmp(out, timetable, length) == 0;
}

/* The start of a line of a text, counted from 0. The text has that line. */
static const char *line_of(const char *text, unsigned line) {
    while (line > 0) line -= *text++ == '\n';
    return text;
}

/* The total of a timetable: the number on its last line. */
static uint32_t total_of(const uint8_t *timetable, size_t length) {
    uint32_t total = 0, digit = 1;
    for (size_t at = length - 1; timetable[at - 1] != '\n'; at--, digit *= 10) {
        total += digit * (uint32_t)(timetable[at - 1] - '0');
    }
    return total;
}

/* Whether train 1, from its own earliest minute, has this total. A file without trains has no train 1, which is 22. The
 * file is accepted, and a zero stands after it. */
static int same_total(const uint8_t *file, size_t file_len, uint32_t total) {
    const char *text = (const char *)file;
    unsigned stations = 0, trains = 0;
    uint16_t earliest = 0;
    uint32_t found = 0;
    if (sscanf(text, "%u", &stations) != 1) return 0;
    const char *count = line_of(text, 2 * stations + 1);
    int read = sscanf(count, "%u %*u %*u %" SCNu16, &trains, &earliest);
    uint64_t answer = gaugeviolet_starts(file, file_len, 1, &earliest, 1, &found, 1);
    if (trains == 0) return read >= 1 && gaugeviolet_number(answer) == 22 && gaugeviolet_value(answer) == 0;
    return read == 2 && answer == 0 && found == total;
}

int main(void) {
    /* One byte more than a file may have shows that there are too many. After fewer a zero stands. */
    static uint8_t file[GAUGEVIOLET_TEXT_BYTES + 1];
    static uint8_t out[GAUGEVIOLET_TEXT_BYTES];
    size_t file_len = fread(file, 1, sizeof file, stdin);
    if (ferror(stdin)) return fail("the input cannot be read");

    uint64_t answer = gaugeviolet_read(file, file_len);
    if (gaugeviolet_number(answer) != 0) return print_refusal(answer);
    if (!same_again(file, file_len)) return fail("the file is not written out as it stands");

    answer = gaugeviolet_solve(file, file_len, out, sizeof out);
    size_t length = gaugeviolet_value(answer);
    uint32_t total = gaugeviolet_number(answer) == 0 ? total_of(out, length) : GAUGEVIOLET_NO_TIMETABLE;
    if (!same_total(file, file_len, total)) return fail("train 1 from its own earliest minute has another total");
    if (gaugeviolet_number(answer) != 0) return print_refusal(answer);
    if (gaugeviolet_check(file, file_len, out, length) != 0) return fail("the timetable does not pass the check");
    if (!same_minutes(file, file_len, out, length)) return fail("the stop times do not give the minutes back");
    return fwrite(out, 1, length, stdout) == length ? 0 : fail("the timetable cannot be printed");
}
