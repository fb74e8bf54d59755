/*
 * example FEEDER [BUFFER_LENGTH]
 *
 * Studies the feeder in the file FEEDER, writes the report to standard output and behind it the line `sweeps NUMBER`, checks the report and writes
 * `pass`. Where the study or the check refuses, it writes the line `refused NUMBER VALUE`. BUFFER_LENGTH lends the study a buffer shorter than the
 * longest report; where it is too short, the length needed is told on standard error too.
 * Ends with 0 after a pass, 1 after a refusal, 2 where the arguments or the file cannot be used, 3 where standard output cannot be written.
 */
#include <stdio.h>
#include <stdlib.h>

#include "flarecomb.h"

/* One byte more than a feeder may have: of a longer file this much is read, and the study refuses it by its length. */
static uint8_t feeder[FLARECOMB_MOST_BYTES + 1];
static uint8_t report[FLARECOMB_MOST_BYTES];

static int unwritten(void)
{
    perror("standard output");
    return 3;
}

/* What was written may still wait in a buffer: only here is it known whether it could be. */
static int end(int status)
{
    return fflush(stdout) == 0 ? status : unwritten();
}

static int refused(uint64_t answer)
{
    unsigned long number = FLARECOMB_NUMBER(answer);
    unsigned long value = FLARECOMB_VALUE(answer);

    if (printf("refused %lu %lu\n", number, value) < 0)
        return unwritten();
    if (number == FLARECOMB_BUFFER_SHORT)
        fprintf(stderr, "the report has %lu bytes\n", value);
    return end(1);
}

int main(int argc, char **argv)
{
    size_t feeder_len;
    size_t report_len;
    size_t buffer_len = sizeof report;
    uint64_t answer;
    FILE *file;

    if (argc < 2 || argc > 3) {
        fprintf(stderr, "usage: example FEEDER [BUFFER_LENGTH]\n");
        return 2;
    }
    if (argc == 3) {
        char *behind;
        unsigned long asked = strtoul(argv[2], &behind, 10);
        if (behind == argv[2] || *behind != '\0' || asked > sizeof report) {
            fprintf(stderr, "%s: not a length from 0 to %lu\n", argv[2], (unsigned long)sizeof report);
            return 2;
        }
        buffer_len = (size_t)asked;
    }
    file = fopen(argv[1], "rb");
    if (file == NULL) {
        perror(argv[1]);
        return 2;
    }
    feeder_len = fread(feeder, 1, sizeof feeder, file);
    if (ferror(file)) {
        perror(argv[1]);
        fclose(file);
        return 2;
    }
    fclose(file);

    answer = flarecomb_study(feeder, feeder_len, report, buffer_len);
    if (FLARECOMB_NUMBER(answer) != 0)
        return refused(answer);
    report_len = FLARECOMB_VALUE(answer);
    if (fwrite(report, 1, report_len, stdout) != report_len)
        return unwritten();
    if (printf("sweeps %lu\n", (unsigned long)FLARECOMB_SWEEPS(answer)) < 0)
        return unwritten();

    answer = flarecomb_check(feeder, feeder_len, report, report_len);
    if (answer != 0)
        return refused(answer);
    if (printf("pass\n") < 0)
        return unwritten();
    return end(0);
}
