/* Sizes the job in a file, or a built-in job, and prints the least delay and lean and wide at each place. */
#include <stdio.h>

#include "numlejka.h"

/* A job of two widths, two driver sizes, two stages and one segment. */
static const uint8_t built_in[] = {
    1, 0, 0, 0, 4,  0, 0, 0, 2, 0, 0, 0, 0, 0, 0, 0, /* width 0: resistance 4, capacitance 2 */
    1, 1, 0, 0, 2,  0, 0, 0, 3, 0, 0, 0, 0, 0, 0, 0, /* width 1: resistance 2, capacitance 3 */
    2, 0, 0, 0, 10, 0, 0, 0, 3, 0, 0, 0, 1, 0, 0, 0, /* size 0: resistance 10, gate 3, output 1 */
    2, 1, 0, 0, 5,  0, 0, 0, 7, 0, 0, 0, 1, 0, 0, 0, /* size 1: resistance 5, gate 7, output 1 */
    3, 0, 0, 0, 0,  0, 0, 0, 0, 0, 0, 0, 0, 0, 0, 0, /* stage 0: size 0 */
    3, 1, 0, 1, 0,  0, 0, 0, 0, 0, 0, 0, 0, 0, 0, 0, /* stage 1: sizes 0 to 1 */
    4, 0, 0, 1, 1,  0, 0, 0, 4, 0, 0, 0, 1, 0, 1, 0, /* segment 0: length 1, sink 4, weight 1, widths 0 to 1 */
};

/* A file of more than 65,536 bytes is too long; one byte more tells it. */
static uint8_t from_file[65537];

/* The number of places of a job that is not refused: its stages, its segments and its repeaters. */
static size_t places_of(const uint8_t *job, size_t length)
{
    size_t places = 0;
    for (size_t at = 0; at < length; at += 16)
        places += job[at] >= 3 && job[at] <= 5;
    return places;
}

/* The number in eight bytes, the lowest first. */
static unsigned long long number_in(const uint8_t *bytes)
{
    unsigned long long number = 0;
    for (size_t i = 8; i > 0; i--)
        number = number << 8 | bytes[i - 1];
    return number;
}

/* Reads a file into from_file, cut to its length; tells whether that went well. */
static int read_job(const char *name, size_t *length)
{
    FILE *file = fopen(name, "rb");
    if (file == NULL)
        return 0;
    *length = fread(from_file, 1, sizeof from_file, file);
    int well = !ferror(file);
    fclose(file);
    return well;
}

/* Prints the reply of a job; the exit status tells whether it was answered. */
static int print_reply(const uint8_t *job, size_t length)
{
    uint8_t reply[NUMLEJKA_REPLY_LENGTH];
    size_t number = numlejka_size(job, length, reply, sizeof reply);
    if (number != 0) {
        printf("refused %zu\n", number);
        return 1;
    }
    printf("delay %llu\n", number_in(reply));
    for (size_t place = 0; place < places_of(job, length); place++)
        printf("place %zu lean %d wide %d\n", place, reply[8 * (1 + place) + 2], reply[8 * (1 + place) + 3]);
    return 0;
}

int main(int count, char **words)
{
    size_t length = 0;
    if (count < 2)
        return print_reply(built_in, sizeof built_in);
    if (!read_job(words[1], &length)) {
        fprintf(stderr, "cannot read %s\n", words[1]);
        return 2;
    }
    if (length == sizeof from_file) {
        printf("too long\n");
        return 1;
    }
    return print_reply(from_file, length);
}
