/* The checking service from C. With the name of a line file: prints it read and written out again. With the name of a
 * timetable after it: prints 'passed'. Where it is refused: 'refused n p', n the number, p the place. The exit status is
 * 0 for all of these, and 1 where a file cannot be read or the library contradicts itself.
 *
 * It calls the three functions of the checking service and no other, so it links with libservice.a alone. */
#include <stdio.h>

#include "gaugeviolet.h"

/* One byte more than a text may have shows that there are too many. */
typedef struct {
    uint8_t bytes[GAUGEVIOLET_TEXT_BYTES + 1];
    size_t length;
} text;

static int fail(const char *why) {
    fprintf(stderr, "check: %s\n", why);
    return 1;
}

/* Whether the file was read. */
static int read_text(const char *name, text *into) {
    FILE *from = fopen(name, "rb");
    if (!from) return 0;
    into->length = fread(into->bytes, 1, sizeof into->bytes, from);
    int well = !ferror(from);
    fclose(from);
    return well;
}

static int print_refusal(uint64_t answer) {
    printf("refused %lu %lu\n", (unsigned long)gaugeviolet_number(answer), (unsigned long)gaugeviolet_value(answer));
    return 0;
}

static int rewrite(const text *file) {
    static uint8_t out[GAUGEVIOLET_TEXT_BYTES];
    uint64_t read = gaugeviolet_read(file->bytes, file->length);
    uint64_t answer = gaugeviolet_rewrite(file->bytes, file->length, out, sizeof out);
    if (gaugeviolet_number(read) != gaugeviolet_number(answer)) return fail("reading and rewriting differ");
    if (gaugeviolet_number(answer) != 0) return print_refusal(answer);
    size_t length = gaugeviolet_value(answer);
    return fwrite(out, 1, length, stdout) == length ? 0 : fail("the line file cannot be printed");
}

static int check(const text *file, const text *timetable) {
    uint64_t answer = gaugeviolet_check(file->bytes, file->length, timetable->bytes, timetable->length);
    if (gaugeviolet_number(answer) != 0) return print_refusal(answer);
    puts("passed");
    return 0;
}

int main(int count, char **names) {
    static text file, timetable;
    if (count < 2 || count > 3) return fail("give the name of a line file, and of a timetable if it is to be checked");
    if (!read_text(names[1], &file)) return fail("the line file cannot be read");
    if (count == 2) return rewrite(&file);
    if (!read_text(names[2], &timetable)) return fail("the timetable cannot be read");
    return check(&file, &timetable);
}
