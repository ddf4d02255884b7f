/*
 * Three levels over a model file, through the library: the lines of the program ladder.
 *
 *     ladder <examples/dough.pomdp
 *
 * It ends with 0 if it served, with 1 if something was refused, with 2 if its input or output failed.
 */
#include <inttypes.h>
#include <stdio.h>

#include "biidhaqun.h"

/* One byte more than a file may have shows that it is too long. */
static uint8_t file[BIIDHAQUN_FILE_BYTES + 1];

/* Rooms for levels are large for a stack. */
static struct biidhaqun_tables_room tables_room;
static struct biidhaqun_certifier_room standing_room;
static struct biidhaqun_level_room built_room;

/* Says what was refused; whether anything was. */
static int refused(uint64_t number, size_t place)
{
    if (number != BIIDHAQUN_SERVED)
        printf("refused %" PRIu64 " at %zu\n", number, place);
    return number != BIIDHAQUN_SERVED;
}

/* The status to end with, once everything is written; 2 where it cannot be. */
static int ended(int status)
{
    if (fflush(stdout) != 0 || ferror(stdout)) {
        fputs("ladder: standard output cannot be written\n", stderr);
        return 2;
    }
    return status;
}

int main(void)
{
    if (biidhaqun_version() != BIIDHAQUN_VERSION) {
        fputs("ladder: the archive is of another version than the header\n", stderr);
        return 2;
    }
    size_t length = fread(file, 1, sizeof file, stdin);
    if (ferror(stdin)) {
        fputs("ladder: standard input cannot be read\n", stderr);
        return 2;
    }
    struct biidhaqun_tables tables;
    struct biidhaqun_certifier certifier;
    struct biidhaqun_level level;
    biidhaqun_tables_in(&tables, &tables_room);
    biidhaqun_certifier_in(&certifier, &standing_room);
    biidhaqun_level_in(&level, &built_room);

    uint16_t start[BIIDHAQUN_STATES];
    struct biidhaqun_refusal x = biidhaqun_read_file(file, length, &tables, start, BIIDHAQUN_STATES);
    if (refused(x.number, x.place))
        return ended(1);
    x = biidhaqun_open_on(&tables, &certifier);
    if (refused(x.number, x.place))
        return ended(1);

    /* One point to build at, and the mixture to ask at: the start numbers. */
    uint32_t point[BIIDHAQUN_STATES];
    for (size_t s = 0; s < tables.states; s++)
        point[s] = start[s];

    for (int step = 0; step < 3; step++) {
        x = biidhaqun_build_level(&tables, &certifier, 1, point, tables.states, &level);
        if (refused(x.number, x.place))
            return ended(1);
        x = biidhaqun_offer_level(&tables, &certifier, &level);
        if (refused(x.number, x.place))
            return ended(1);
        struct biidhaqun_bounds at = biidhaqun_totals_at(&tables, &certifier, point, tables.states);
        if (refused(at.number, at.place))
            return ended(1);
        printf("%zu %" PRId64 " %" PRId64 " %" PRId64 " %zu\n", certifier.state[0], at.lower, at.upper, at.gap,
               at.action);
    }
    return ended(0);
}
