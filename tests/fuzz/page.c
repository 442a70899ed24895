/*
 * A fuzz target for libFuzzer: any bytes as a job. The page must fit, be one line that refuses the job or lines of a run, each with its
 * page, have an end line nowhere but last, and leave every byte beyond it as it came; a shorter buffer must be left alone.
 */
#include "check.h"

static const uint8_t *skip_digits(const uint8_t *at)
{
    while ('0' <= *at && *at <= '9')
        at++;
    return at;
}

/* A page 0 to 15, a number or `end`, and a label. An end line is on page 0, and the last. */
static const uint8_t *check_line(const uint8_t *line, const uint8_t *end)
{
    const uint8_t *at = skip_digits(line);
    check(at - line == 1 || (at - line == 2 && line[0] == '1' && line[1] <= '5'));
    check(*at++ == ' ');
    if (*at == 'e') {
        check(end - line == sizeof "0 end 00000000\n" - 1 && memcmp(line, "0 end", 5) == 0);
        at += 3;
    } else {
        const uint8_t *number = at + (*at == '-');
        at = skip_digits(number);
        check(1 <= at - number && at - number <= 19);
    }
    check(*at++ == ' ');
    for (int digit = 0; digit < 8; digit++, at++)
        check(('0' <= *at && *at <= '9') || ('a' <= *at && *at <= 'f'));
    check(*at == '\n');
    return at + 1;
}

static void check_lines(const uint8_t *page, const uint8_t *end)
{
    if (page < end && (*page == 'j' || *page == 'r'))
        check(memchr(page, '\n', (size_t)(end - page)) == end - 1);
    else
        while (page < end)
            page = check_line(page, end);
    check(page <= end);
}

int LLVMFuzzerTestOneInput(const uint8_t *job, size_t length)
{
    static uint8_t page[GUARD + LUVRODAN_PAGE_LIMIT + GUARD];
    uint8_t *start = page + GUARD;
    uint8_t *end = page + sizeof page;
    memset(page, UNTOUCHED, sizeof page);

    luvrodan_page_result made = luvrodan_page(job, length, start, LUVRODAN_PAGE_LIMIT - 1);
    check(made.status == 1 && made.length == LUVRODAN_PAGE_LIMIT);
    check_untouched(page, end);

    made = luvrodan_page(job, length, start, LUVRODAN_PAGE_LIMIT);
    check(made.status == 0 && made.length <= LUVRODAN_PAGE_LIMIT);
    check_lines(start, start + made.length);
    check_untouched(page, start);
    check_untouched(start + made.length, end);
    return 0;
}
