/* Measures a sizing of the job on standard input, an index a word, and prints its scaled delay and its load figure. */
#include <ctype.h>
#include <stdio.h>
#include <stdlib.h>

#include "numlejka.h"

/* An input of more than 65,536 bytes is too long; one byte more tells it. */
static uint8_t job[65537];

int main(int count, char **words)
{
    /* No job has more than 76 places, and indices behind the last place make no difference. */
    uint8_t sizing[76];
    size_t places = 0;
    for (int i = 1; i < count; i++) {
        char *end;
        unsigned long index = strtoul(words[i], &end, 10);
        if (!isdigit((unsigned char)words[i][0]) || *end != '\0' || index > 255) {
            fprintf(stderr, "usage: measure INDEX.. <JOB\n");
            return 2;
        }
        if (places < sizeof sizing)
            sizing[places++] = (uint8_t)index;
    }
    size_t length = fread(job, 1, sizeof job, stdin);
    if (ferror(stdin)) {
        perror("standard input");
        return 2;
    }
    if (length == sizeof job) {
        printf("too long\n");
        return 1;
    }
    uint64_t delay, load;
    size_t number = numlejka_measure(job, length, sizing, places, &delay, &load);
    if (number != 0) {
        printf("refused %zu\n", number);
        return 1;
    }
    printf("delay %llu\nload %llu\n", (unsigned long long)delay, (unsigned long long)load);
    return 0;
}
