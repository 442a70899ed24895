/*
 * Prints the page of a sheet that adds a public and a secret number, for a reader who is cleared for owner 0. All its
 * lines stand on page 0, and the last, `0 end 00000000`, says that nothing is missing. docs/MANUAL.md has the bytes of
 * jobs.
 *
 *     . wrapper/archive.sh
 *     cc -I include examples/embed.c target/staticlib/libexports.a -o embed
 */
#include <inttypes.h>
#include <luvrodan.h>
#include <stdio.h>
#include <string.h>

static const char text[] =
    "Push 1\n"
    "Load\n"
    "Push 0\n"
    "Load\n"
    "Add\n"
    "Output\n"
    "Push 0\n"
    "Load\n"
    "Output\n";

/* The job as far as its sheet. */
static const uint8_t head[] = {
    0x40, 7, 0, 0, 0, 0, 0, 0, 0, 0, 0, 0, 0, /* cell 0: 7, label 0 */
    0x40, 5, 0, 0, 0, 0, 0, 0, 0, 1, 0, 0, 0, /* cell 1: 5, label 1 */
    0x42, 1, 0, 0, 0,                         /* the reader's set */
    0x43,                                     /* the sheet */
};

int main(void)
{
    static uint8_t job[sizeof head + LUVRODAN_SHEET_LIMIT];
    static uint8_t page[LUVRODAN_PAGE_LIMIT];

    memcpy(job, head, sizeof head);
    luvrodan_written sheet =
        luvrodan_assemble((const uint8_t *)text, strlen(text), job + sizeof head, LUVRODAN_SHEET_LIMIT);
    if (sheet.refusal != 0) {
        fprintf(stderr, "refused %" PRIu64 ", line %" PRIu64 "\n", sheet.refusal, sheet.position);
        return 1;
    }
    luvrodan_page_result result = luvrodan_page(job, sizeof head + sheet.length, page, sizeof page);
    if (result.status != 0)
        return 1;
    return fwrite(page, 1, result.length, stdout) == result.length ? 0 : 1;
}
