/* Prints what can be told of a timing sheet: the separations from each event, or its knot, or its fault; and then the
 * verdicts on its needs.
 *
 * usage: main SHEET [RULES]   RULES is the number of a rule set; without it, 1 (vote) */
#include "../../include/vaultginger.h"

#include <inttypes.h>
#include <stdio.h>
#include <stdlib.h>

enum {
    TEXT_ROOM = 65537, /* one byte more than a text may have shows that it is too long */
    REPORT_ROOM = 1 << 17 /* more than any report has */
};

static uint8_t text[TEXT_ROOM];
static uint8_t report[REPORT_ROOM];

/* The verdicts, as `check` prints them. */
static int print_report(size_t text_len)
{
    int64_t written = vaultginger_report(text, text_len, report, sizeof report);
    if (written < 0) {
        printf("refused\t%" PRId64 "\n", -written);
        return 1;
    }
    fwrite(report, 1, (size_t)written, stdout);
    return 0;
}

static void print_events(size_t source, const vaultginger_event_reading *events, int64_t count)
{
    printf("from\t%zu", source);
    for (int64_t i = 0; i < count; i++) {
        if (events[i].open)
            printf("\topen");
        else
            printf("\t%" PRId64, events[i].separation);
    }
    printf("\n");
}

static void print_knot(const uint8_t *knot)
{
    for (size_t i = 0; i < VAULTGINGER_MAX_BOUNDS; i++)
        if (knot[i])
            printf("in knot\t%zu\n", i);
}

/* One line for each event: how late every event can come after it. */
static int print_separations(uint8_t rules, size_t text_len)
{
    vaultginger_event_reading events[VAULTGINGER_MAX_EVENTS];
    uint8_t knot[VAULTGINGER_MAX_BOUNDS] = {0};
    vaultginger_fault_place fault = {0, 0, 0};
    int64_t count = 1;

    for (size_t source = 0; (int64_t)source < count; source++) {
        count = vaultginger_settle(rules, text, text_len, source, events, VAULTGINGER_MAX_EVENTS, knot,
                                   VAULTGINGER_MAX_BOUNDS, &fault, 1);
        if (fault.number != 0) {
            printf("fault\t%zu\tline\t%zu\tfield\t%zu\n", fault.number, fault.line, fault.field);
            return 0;
        }
        if (count == VAULTGINGER_CONTRADICTORY) {
            print_knot(knot);
            return 0;
        }
        if (count == VAULTGINGER_NO_SUCH_EVENT) {
            printf("no events\n");
            return 0;
        }
        if (count < 0) {
            printf("refused\t%" PRId64 "\n", -count);
            return 1;
        }
        print_events(source, events, count);
    }
    return 0;
}

int main(int argc, char **argv)
{
    if (argc < 2) {
        fprintf(stderr, "usage: main SHEET [RULES]\n");
        return 2;
    }
    FILE *file = fopen(argv[1], "rb");
    if (file == NULL) {
        fprintf(stderr, "cannot read %s\n", argv[1]);
        return 2;
    }
    size_t text_len = fread(text, 1, sizeof text, file);
    fclose(file);

    uint8_t rules = argc > 2 ? (uint8_t)atoi(argv[2]) : VAULTGINGER_VOTE;
    return print_separations(rules, text_len) | print_report(text_len);
}
