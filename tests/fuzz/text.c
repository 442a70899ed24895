/*
 * A fuzz target for libFuzzer: any bytes as a text to read, and as a sheet to list. A refusal must have a number and a place of its own
 * and leave the buffer alone; what is written must need no byte less and leave every byte beyond it as it came. What is read, listed and
 * read again must be the same sheet; so must what is listed and read.
 */
#include "check.h"

typedef luvrodan_written (*writer)(const uint8_t *, size_t, uint8_t *, size_t);

/* Writes to a buffer of this length behind GUARD bytes of `space`, and before as many. */
static luvrodan_written run(writer writes, const uint8_t *input, size_t length, uint8_t *space, size_t buffer)
{
    uint8_t *start = space + GUARD;
    memset(space, UNTOUCHED, GUARD + buffer + GUARD);
    luvrodan_written made = writes(input, length, start, buffer);
    check(made.refusal == 0 ? made.position == 0 && made.length <= buffer : made.length == 0);
    check_untouched(space, start);
    check_untouched(start + made.length, start + buffer + GUARD);
    return made;
}

/* The same with a buffer that holds all that can be written; then with one that is a byte short, and one that just holds it. */
static luvrodan_written run_fitting(writer writes, const uint8_t *input, size_t length, uint8_t *space, size_t limit)
{
    luvrodan_written made = run(writes, input, length, space, limit);
    if (made.length > 0) {
        luvrodan_written other = run(writes, input, length, space, made.length - 1);
        check(other.refusal == LUVRODAN_REFUSED_SPACE && other.position == 4);
        other = run(writes, input, length, space, made.length);
        check(other.refusal == 0 && other.length == made.length);
    }
    return made;
}

/* Lists a sheet, and reads what was listed. */
static luvrodan_written list(const uint8_t *sheet, size_t length)
{
    static uint8_t text[GUARD + LUVRODAN_TEXT_LIMIT + GUARD];
    static uint8_t again[GUARD + LUVRODAN_SHEET_LIMIT + GUARD];
    luvrodan_written listed = run_fitting(luvrodan_list, sheet, length, text, LUVRODAN_TEXT_LIMIT);
    if (listed.refusal == 0) {
        luvrodan_written read = run(luvrodan_assemble, text + GUARD, listed.length, again, LUVRODAN_SHEET_LIMIT);
        check(read.refusal == 0 && read.length == length && memcmp(again + GUARD, sheet, length) == 0);
    }
    return listed;
}

int LLVMFuzzerTestOneInput(const uint8_t *input, size_t length)
{
    static uint8_t sheet[GUARD + LUVRODAN_SHEET_LIMIT + GUARD];
    luvrodan_written read = run_fitting(luvrodan_assemble, input, length, sheet, LUVRODAN_SHEET_LIMIT);
    switch (read.refusal) {
    case LUVRODAN_ACCEPTED:
        check(list(sheet + GUARD, read.length).refusal == 0);
        break;
    case LUVRODAN_REFUSED_COMMANDS:
        check(read.position == LUVRODAN_COMMAND_LIMIT + 1);
        break;
    default:
        check(read.refusal == LUVRODAN_REFUSED_LINE || read.refusal == LUVRODAN_REFUSED_RANGE);
        check(1 <= read.position && read.position <= LUVRODAN_COMMAND_LIMIT);
    }

    luvrodan_written listed = list(input, length);
    check(listed.refusal <= LUVRODAN_REFUSED_OPERAND || listed.refusal == LUVRODAN_REFUSED_PAGE
          || listed.refusal == LUVRODAN_REFUSED_CALL);
    check(listed.refusal == 0 || listed.position < length);
    return 0;
}
