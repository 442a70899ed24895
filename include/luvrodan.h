/*
 * The labelled sheet machine: the C interface to the proved engines.
 *
 * docs/MANUAL.md describes the machine; its numbers of commands, refusals and stops are used here.
 *
 * Every run of words or bytes is lent as a pointer and the number of its elements, for the time of the call. A
 * pointer is never null and is aligned for its element, also where the number is 0. A run that is not const overlaps
 * no other run of the same call. Nothing is kept after a call, nothing is allocated, and calls on different memory
 * may go on at the same time.
 *
 * Built for x86-64 Linux (System V calling convention).
 */
#ifndef LUVRODAN_H
#define LUVRODAN_H

#include <stddef.h>
#include <stdint.h>

#ifdef __cplusplus
extern "C" {
#endif

/* Limits. */
#define LUVRODAN_COMMAND_LIMIT 4096      /* commands of a sheet */
#define LUVRODAN_CELL_LIMIT 1024         /* cells */
#define LUVRODAN_TABLE_LIMIT 512         /* bytes of a rule table */
#define LUVRODAN_HANDLER_LIMIT 8192      /* kernel commands of a handler */
#define LUVRODAN_FUEL_LIMIT 1000000      /* allowance: steps of a run */
#define LUVRODAN_STACK_WORDS 768         /* 256 stack entries of three words: kind, number, label */
#define LUVRODAN_RULE_MEMORY_WORDS 7     /* code, P, L1, L2, L3, new place label, result label */
#define LUVRODAN_PROGRAM_WORDS 8192      /* enough for any sheet: two words a command: code, operand or 0 */
#define LUVRODAN_HANDLER_WORDS 16384     /* enough for any handler: two words a command */
#define LUVRODAN_PAGE_COUNT 16           /* pages of a run: their numbers are 0 to 15; a clearance word for each */
#define LUVRODAN_PAGE_LIMIT 33792        /* bytes of the longest page: 1,024 lines, end line included, of at most 33 */
#define LUVRODAN_SHEET_LIMIT 36864       /* bytes of the longest sheet: 4,096 commands of at most 9 */
#define LUVRODAN_TEXT_LIMIT 106496       /* bytes of the longest listing: 4,096 lines, newlines included, of at most 26 */

/* Bytes of the standard rules as a table (docs/MANUAL.md has them). */
#define LUVRODAN_STANDARD_TABLE_LENGTH 60

/* The clearance word of a page that is cleared for all owners: 2^32-1. */
#define LUVRODAN_ALL_OWNERS 4294967295

/* Refusals (luvrodan_result.refusal, luvrodan_written.refusal). */
enum {
    LUVRODAN_ACCEPTED = 0,
    LUVRODAN_REFUSED_COMMANDS = 1,       /* a 4,097th command; position: its byte offset, in a text its line, 4,097 */
    LUVRODAN_REFUSED_CODE = 2,           /* a code that is not 01 to 0e; position: its offset */
    LUVRODAN_REFUSED_OPERAND = 3,        /* a cut operand; position: the command's offset */
    LUVRODAN_REFUSED_CELLS = 4,          /* runs of cells that differ in length (the shorter), or over 1,024 (1,024) */
    LUVRODAN_REFUSED_LABEL = 5,          /* a label word outside 0 to 2^32-1; position: the first such cell */
    LUVRODAN_REFUSED_TABLE = 6,          /* no rule table; position: 512 where it is longer, else the first faulty byte */
    LUVRODAN_REFUSED_RULE_MEMORY = 7,    /* neither empty nor an allowed row of this table, or not seven words; 0 */
    LUVRODAN_REFUSED_SPACE = 8,          /* too short: 1 program, 2 stack, 3 handler, the first such; 4 output buffer */
    LUVRODAN_REFUSED_FUEL = 9,           /* an allowance over 1,000,000; 0 */
    LUVRODAN_REFUSED_LINE = 10,          /* not a command and its operands; position: the text's line, from 1 */
    LUVRODAN_REFUSED_RANGE = 11,         /* an operand outside its command's range; position: the text's line, from 1 */
    LUVRODAN_REFUSED_PAGE = 12,          /* an OutputTo page over 15; position: the command's offset */
    LUVRODAN_REFUSED_CLEARANCE = 13,     /* not 16 clearance words (16), else one outside 0 to 2^32-1 (first such page) */
    LUVRODAN_REFUSED_CALL = 14           /* a CallN of over 15 arguments or 1 result; position: the command's offset */
};

/* Stops (luvrodan_result.stop, where refusal is 0). */
enum {
    LUVRODAN_STOP_END = 0,               /* the place equals the number of commands, and the end line is written */
    LUVRODAN_STOP_FUEL = 1,              /* the allowance is spent */
    LUVRODAN_STOP_PLACE = 2,             /* the place is outside the sheet */
    LUVRODAN_STOP_VALUE = 3,             /* a value is needed and none is there */
    LUVRODAN_STOP_FRAME = 4,             /* a frame is needed and none is there: on top, for a RetV under the top */
    LUVRODAN_STOP_ADDRESS = 5,           /* an address outside the cells */
    LUVRODAN_STOP_DENIED = 6,            /* the rule does not allow the command */
    LUVRODAN_STOP_STACK = 7,             /* the stack is full */
    LUVRODAN_STOP_OUTPUT = 8,            /* the output space is full: for an Output or OutputTo, or for the end line */
    LUVRODAN_STOP_OVERFLOW = 9,          /* a sum or difference outside 64 bits; tested after 6, before 7 and 8 */
    LUVRODAN_STOP_CLEARANCE = 10,        /* a line whose page is not cleared for its label; after 6, before 9, 7 and 8 */
    LUVRODAN_STOP_RESULTS = 11           /* results due do not match the return: a Ret and 1, a RetV and 0; after 4 */
};

/* Kinds of stack entries (the first of an entry's three words). */
enum {
    LUVRODAN_ENTRY_VALUE = 0,
    LUVRODAN_ENTRY_FRAME = 1,            /* a frame with no result due */
    LUVRODAN_ENTRY_FRAME_RESULT = 2      /* a frame with one result due */
};

/* Kinds of lines (the words of kinds). */
enum {
    LUVRODAN_LINE_NUMBER = 0,            /* a number that an Output or OutputTo wrote */
    LUVRODAN_LINE_END = 1                /* the end of the sheet: the last line, its number and page 0, its label P */
};

/*
 * What a run came to. Where refusal is not 0, position is the refusal's place and every later field is 0. Where it
 * is 0, position is 0 and the rest says where the run stopped and what it counted; faults and kernel_steps are 0 from
 * the plain engine.
 */
typedef struct {
    uint64_t refusal;
    uint64_t position;
    uint64_t stop;
    uint64_t steps;
    int64_t pc;                          /* number of the next command */
    uint64_t pc_label;                   /* the place's label P */
    uint64_t depth;                      /* entries on the stack */
    uint64_t lines;                      /* lines written, the end line among them */
    uint64_t faults;
    uint64_t kernel_steps;
} luvrodan_result;

/*
 * Runs a sheet under the standard rules.
 *
 * values, labels: the cells; Store changes them. clearances: exactly LUVRODAN_PAGE_COUNT words, page 0's first, each a
 * set of owners as labels are. program: two words a command; of CallN the second is 16 times its arguments plus its
 * results. stack: 768 words. numbers, line_labels, kinds, pages: the output space, a number word, a label word, a kind
 * word and a page word for each line; the shortest sets how many lines fit. Output writes to page 0, OutputTo to the page
 * that it names; all pages share the space, and their lines stand in the order in which they were written.
 *
 * A line goes out only if every owner of its label is one of its page's clearance. Otherwise the run is stop 10 at that
 * Output or OutputTo, which drops nothing: no line is left out for a later one. LUVRODAN_ALL_OWNERS lets every line of
 * a page out.
 *
 * A run that comes to the end of the sheet writes an end line, on page 0, and is stop 0; the line is no step, needs no
 * allowance and asks no rule. Where page 0 is not cleared for its label the run is stop 10, else without output space
 * for it stop 8, also where the allowance is spent: its place is the number of commands, and all else is as it was. So
 * the last line is an end line exactly if the run is stop 0.
 *
 * Refusals, in this order: 1, 2, 3, 12, 14 (sheet, at each command from the left), 4, 5 (cells), 13 (clearances: their
 * number, then each word), 8 at 1 or 2 (spaces), 9 (allowance). A refused call changes no lent word.
 *
 * After an accepted run program holds the sheet's commands from its start; stack the entries, bottom first, with
 * dropped entries above as they were; numbers, line_labels, kinds and pages the lines from their start; values and
 * labels the cells. All other lent words are as they came.
 */
luvrodan_result luvrodan_plain(const uint8_t *sheet, size_t sheet_length,
                               int64_t *values, size_t value_count,
                               int64_t *labels, size_t label_count,
                               const int64_t *clearances, size_t clearance_count,
                               int64_t *program, size_t program_words,
                               int64_t *stack, size_t stack_words,
                               int64_t *numbers, size_t number_count,
                               int64_t *line_labels, size_t line_label_count,
                               int64_t *kinds, size_t kind_count,
                               int64_t *pages, size_t page_count,
                               uint64_t fuel);

/*
 * Runs a sheet on the tag engine, under the rules of a table.
 *
 * As luvrodan_plain, and further: table: the rules, operator first, of 01 to 0b and then of 0e, RetV. rule_memory:
 * exactly seven words, read at the start and written at the end; seven zeros mean empty. OutputTo is under Output's rule
 * and CallN under Call's; their rows have their own codes, 0c and 0d. An Output or OutputTo that is stop 10 has been
 * ruled on, as its row and the counts show; a return that is stop 11 has not. handler: two words a kernel command (codes
 * as on sheets, 11 Or, 12 Dup, 13 Swap), luvrodan_handler_count of them.
 *
 * Refusals, in this order: 1, 2, 3, 12, 14 (sheet), 4, 5 (cells), 13 (clearances), 6 (rules), 7 (rule memory), 8 at 1, 2
 * or 3 (spaces), 9 (allowance). A refused call changes no lent word.
 *
 * After an accepted run handler holds the table's handler from its start and rule_memory the rule memory; words
 * beyond are as they came.
 */
luvrodan_result luvrodan_tagged(const uint8_t *sheet, size_t sheet_length,
                                int64_t *values, size_t value_count,
                                int64_t *labels, size_t label_count,
                                const int64_t *clearances, size_t clearance_count,
                                const uint8_t *table, size_t table_length,
                                int64_t *rule_memory, size_t rule_memory_words,
                                int64_t *program, size_t program_words,
                                int64_t *stack, size_t stack_words,
                                int64_t *handler, size_t handler_words,
                                int64_t *numbers, size_t number_count,
                                int64_t *line_labels, size_t line_label_count,
                                int64_t *kinds, size_t kind_count,
                                int64_t *pages, size_t page_count,
                                uint64_t fuel);

/* How many kernel commands the handler of this table has, 1 to 8,192; 0 where the bytes are no rule table. */
uint64_t luvrodan_handler_count(const uint8_t *table, size_t table_length);

/*
 * status 0: the page is the buffer's first `length` bytes, and the rest is as it came. status 1: the buffer is
 * shorter than LUVRODAN_PAGE_LIMIT, whatever the job; nothing is written, and length is LUVRODAN_PAGE_LIMIT.
 */
typedef struct {
    uint64_t status;
    uint64_t length;
} luvrodan_page_result;

/*
 * The page of a job: what the program `page` prints for these bytes on standard input. Each line begins with the number
 * of the page that it was written to. Every page is cleared for all owners: what is shown goes by the reader's set.
 */
luvrodan_page_result luvrodan_page(const uint8_t *job, size_t job_length, uint8_t *page, size_t page_length);

/*
 * What was written of a sheet or a text. refusal 0: it is the buffer's first `length` bytes, the rest is as it came,
 * and position is 0. Otherwise position is the refusal's place, length is 0, and the whole buffer is as it came.
 */
typedef struct {
    uint64_t refusal;
    uint64_t position;
    uint64_t length;
} luvrodan_written;

/*
 * Reads a text and writes its sheet.
 *
 * A line is a command's name (Add, Sub, Pop, Output, Push, Load, Store, Jump, Bnz, Call, Ret, OutputTo, CallN, RetV) and
 * each of its operands after one space: digits, perhaps after a minus. Push takes a signed number of 64 bits, Bnz one of
 * 16, OutputTo a page, 0 to 15, CallN the number of arguments, 0 to 15, and then of results, 0 or 1. An operand may have
 * any number of digits; leading zeros and a minus before 0 are read too. Nothing else may stand on a line, no second
 * space, tab, carriage return or plus. A newline ends each line; the last one may be missing. The empty text is the empty
 * sheet. The names stand above in the order of their codes, 01 to 0e.
 *
 * Refusals, line by line: 1 at line 4,097, whatever it holds; 10 (an unknown name, more or fewer operands than the
 * command has, or one that is badly written); 11 (an operand outside its range). After all lines: 8 at 4 (the sheet is
 * longer than the buffer). A buffer of LUVRODAN_SHEET_LIMIT bytes is enough for any text.
 */
luvrodan_written luvrodan_assemble(const uint8_t *text, size_t text_length, uint8_t *sheet, size_t sheet_length);

/*
 * Lists a sheet as the one normal text: no leading zeros, no minus before 0, a newline at each line's end. Reading
 * that gives the sheet again.
 *
 * Refusals, in this order: 1, 2, 3, 12, 14 (sheet), 8 at 4 (the text is longer than the buffer). A buffer of
 * LUVRODAN_TEXT_LIMIT bytes is enough for any sheet.
 */
luvrodan_written luvrodan_list(const uint8_t *sheet, size_t sheet_length, uint8_t *text, size_t text_length);

#ifdef __cplusplus
}
#endif

#endif
