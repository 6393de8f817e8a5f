/* Four sites, one place located, the statement; and the report on a survey file. */
#include "../mubdrax.h"
#include <inttypes.h>
#include <stdio.h>

enum { POINTS = 16, TETS = 64 };

static mubdrax_point points[POINTS];
static mubdrax_reading readings[POINTS];
static mubdrax_tet tets[TETS];

static const struct {
    uint16_t x, y, z;
    mubdrax_reading reading;
} sites[] = {
    {100, 100, 100, {MUBDRAX_MEASURED, 8.0}},
    {110, 100, 100, {MUBDRAX_MEASURED, 9.75}},
    {100, 110, 100, {MUBDRAX_BELOW, 50.0}},
    {100, 100, 110, {MUBDRAX_MISSING, 0.0}},
    {100, 100, 100, {MUBDRAX_MEASURED, 1.0}}, /* refused: the place is taken */
};

/* The same four sites as a file. */
static const uint8_t file[] = {
    0x06, 0x41, 0x90, 0x64, 0x40, 0x00, 0x00, 0x20, 0x06, 0xE1, 0x90, 0x64, 0x40, 0x00, 0x00, 0x27,
    0x06, 0x41, 0xB8, 0x64, 0x50, 0x00, 0x00, 0xC8, 0x06, 0x41, 0x90, 0x6E, 0x60, 0x00, 0x00, 0x00,
    0xC0, 0x00, 0x00, 0x04,
};

static int say(const char *call, mubdrax_answer answer) {
    if (answer.refusal == 0) {
        return printf("%s: %" PRIu32 "\n", call, answer.value);
    }
    return printf("%s: refused %" PRIu32 "\n", call, answer.refusal);
}

int main(void) {
    mubdrax_counts counts;
    say("create", mubdrax_create(&counts, points, POINTS, readings, POINTS, tets, TETS));
    for (size_t i = 0; i < sizeof sites / sizeof sites[0]; i++) {
        say("add", mubdrax_add(&counts, points, POINTS, readings, POINTS, tets, TETS, sites[i].x, sites[i].y,
                               sites[i].z, 0, sites[i].reading));
    }
    say("locate", mubdrax_locate(&counts, points, POINTS, readings, POINTS, tets, TETS, 102, 102, 102));
    mubdrax_statement statement;
    say("state", mubdrax_state(&counts, points, POINTS, readings, POINTS, tets, TETS, &statement));
    for (int class = 0; class < 8; class++) {
        printf("%d %" PRIu32 " %" PRId64 "\n", class, statement.lines[class].tetrahedra, statement.lines[class].units);
    }
    printf("margin %" PRId64 "\n", statement.margin);
    uint8_t text[512];
    mubdrax_text report = mubdrax_report(file, sizeof file, text, sizeof text);
    printf("report: status %" PRIu32 ", %zu bytes\n", report.status, report.length);
    fwrite(text, 1, report.status < 2 ? report.length : 0, stdout);
    return report.status == 0 ? 0 : 1;
}
