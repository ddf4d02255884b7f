/*
 * A file whose rewards depend on what follows, as a model file:
 *
 *     convert <examples/outcomes/glazing.pomdp
 *
 * It ends with 0 if it served, with 1 if the file was refused, with 2 if its input or output failed.
 */
#include <inttypes.h>
#include <stdio.h>

#include "biidhaqun.h"

/* One byte more than a file may have shows that it is too long. */
static uint8_t file[BIIDHAQUN_FILE_BYTES + 1];
static uint8_t output[BIIDHAQUN_FILE_BYTES];

int main(void)
{
    struct biidhaqun_conversion x;
    size_t length;
    if (biidhaqun_version() != BIIDHAQUN_VERSION) {
        fputs("convert: the archive is of another version than the header\n", stderr);
        return 2;
    }
    length = fread(file, 1, sizeof file, stdin);
    if (ferror(stdin)) {
        fputs("convert: standard input cannot be read\n", stderr);
        return 2;
    }
    x = biidhaqun_convert(file, length, output, sizeof output);
    if (x.number != BIIDHAQUN_SERVED) {
        fprintf(stderr, "refused %" PRIu64 " at %zu: %s\n", x.number, x.place, biidhaqun_words(x.number));
        return 1;
    }
    if (fwrite(output, 1, x.length, stdout) != x.length || fflush(stdout) != 0) {
        fputs("convert: standard output cannot be written\n", stderr);
        return 2;
    }
    return 0;
}
