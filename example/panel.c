/* Prints the earliest arrival of an enquiry and the rides of its journey: panel FILE FROM TO TIME */
#include "ttg.h"

#include <errno.h>
#include <stdio.h>
#include <stdlib.h>
#include <string.h>

/* Room for every timetable; one byte more for the file, so that a longer one is refused. */
static uint8_t file[TTG_FILE_BYTES(TTG_MOST_STOPS, TTG_MOST_RIDES) + 1];
static uint8_t notices[TTG_NOTICES_BYTES], graph[TTG_GRAPH_BYTES(TTG_MOST_STOPS, TTG_MOST_RIDES)];
static uint8_t work[TTG_WORK_BYTES(TTG_MOST_RIDES)], journey[TTG_JOURNEY_BYTES(TTG_MOST_RIDES)];

/* A number of 0 to 65535 in decimal, or -1. */
static long number(const char *text)
{
    size_t digits = strspn(text, "0123456789");
    long n = digits > 0 && digits < 6 && text[digits] == '\0' ? strtol(text, NULL, 10) : -1;
    return n > 65535 ? -1 : n;
}

int main(int argc, char **argv)
{
    uint16_t asked[3];
    if (argc != 5) {
        fprintf(stderr, "usage: panel FILE FROM TO TIME\n");
        return 2;
    }
    for (int i = 0; i < 3; i++) {
        long n = number(argv[i + 2]);
        if (n < 0) {
            fprintf(stderr, "panel: %s is no number of 0 to 65535\n", argv[i + 2]);
            return 2;
        }
        asked[i] = (uint16_t)n;
    }
    FILE *in = fopen(argv[1], "rb");
    size_t len = in == NULL ? 0 : fread(file, 1, sizeof file, in);
    if (in == NULL || ferror(in)) {
        fprintf(stderr, "panel: cannot read %s: %s\n", argv[1], strerror(errno));
        return 2;
    }
    fclose(in);

    uint64_t answer = ttg_build(file, len, notices, sizeof notices, graph, sizeof graph);
    if (TTG_NUMBER(answer) == TTG_ACCEPTED)
        answer = ttg_enquire(file, len, notices, sizeof notices, graph, sizeof graph, work, sizeof work, journey, sizeof journey,
                             asked[0], asked[1], asked[2]);
    if (TTG_NUMBER(answer) != TTG_ACCEPTED) {
        printf("no %u at %u\n", TTG_NUMBER(answer), TTG_PLACE(answer));
        return 1;
    }
    printf("arrives %u by", TTG_ARRIVAL(answer));
    for (unsigned i = 0; i < TTG_COUNT(answer); i++)
        printf(" %u", TTG_AT(journey, i));
    printf("\n");
    return 0;
}
