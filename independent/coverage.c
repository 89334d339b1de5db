#include "coverage.h"

#include <stdio.h>
#include <string.h>

struct table {
    const char *name;
    const char *rows[COVERAGE_ROWS + 1];
    const char *columns[COVERAGE_COLUMNS + 1]; /* an empty name: cannot happen */
    const uint8_t *numbers;                    /* which it can answer */
    size_t number_count;
    int blocks; /* whether it takes or sends blocks */
};

/* 01, Numbers we answer. */
static const uint8_t receiver_numbers[] = {0, 20, 21, 22, 23, 24, 25, 26, 27, 28, 29};
static const uint8_t indoor_numbers[] = {0, 20, 21, 27, 28, 29, 40, 41, 42, 43, 44, 45, 46};
static const uint8_t mailbox_numbers[] = {0, 1, 2, 3, 4, 5, 6, 7, 8, 9, 29};

/* The header's: what a read finds, 0 to 3, and the numbers of the others. */
static const uint8_t recording_numbers[] = {0, 1, 2, 3, 20, 27};

/* In the order of enum second_part; rows in the order of the phases, of the mailbox's status, or of
 * the kinds of records. */
static const struct table tables[] = {
    {"receiver",
     {"Idle", "Transfer", "Await", "Good", NULL},
     {"FW_ID", "INITIATE", "DATA", "DATA_NR", "VALIDATE", "ABORT", "PAUSE", "VENDOR", "malform.",
      "time", NULL},
     receiver_numbers,
     sizeof receiver_numbers,
     1},
    {"indoor",
     {"Identify", "Initiate", "Transfer", "Validate", "Done", "Failed", NULL},
     {"FW_ID", "INITIATE", "DATA", "", "VALIDATE", "", "PAUSE", "VENDOR", "malform.", "time", NULL},
     indoor_numbers,
     sizeof indoor_numbers,
     1},
    {"mailbox",
     {"Nothing", "ResetDone", "Busy", "Completed", "Failed", "NotSupported", "Cancelled",
      "Acknowledged", NULL},
     {"RESET", "CANCEL", "C_RESET", "ACK", "NOTIFY", "CAPABIL.", "C_CAPAB.", "C_STATUS", "other",
      "success", "failure", "change", NULL},
     mailbox_numbers,
     sizeof mailbox_numbers,
     0},
    {"recording",
     {"CONTROL", "change", "success", "failure", "unknown", NULL},
     {"read", "written", NULL},
     recording_numbers,
     sizeof recording_numbers,
     0},
};

static const unsigned blocks[COVERAGE_BLOCKS] = {255, 256, 4094, 4095};

/* Of a million calls or more, so many are to be at full size. */
enum { MANY_CALLS = 1000000, LARGE_LEAST = 1000 };

void coverage_begin(coverage *met, enum second_part part)
{
    memset(met, 0, sizeof *met);
    met->part = part;
}

void coverage_number(coverage *met, unsigned number)
{
    met->numbers[number & 0xFF]++;
}

void coverage_pair(coverage *met, unsigned row, unsigned column)
{
    met->pairs[row][column]++;
}

void coverage_size(coverage *met, size_t size)
{
    met->large += size > 1000000;
}

void coverage_block(coverage *met, unsigned number)
{
    for (size_t i = 0; i < COVERAGE_BLOCKS; i++) {
        met->blocks[i] += number == blocks[i];
    }
}

enum coverage_cable coverage_type(uint8_t type)
{
    unsigned kind = type & 0x7Fu;
    return kind == 0x7F ? COVERAGE_VENDOR_SPECIFIC : (enum coverage_cable)(kind - 1);
}

const char *coverage_name(enum second_part part)
{
    return tables[part].name;
}

int coverage_knows(enum second_part part, unsigned number)
{
    const struct table *table = &tables[part];
    return number < 256 && memchr(table->numbers, (int)number, table->number_count) != NULL;
}

static unsigned missing(const char *what, const char *beside, unsigned long count)
{
    if (count == 0) {
        printf("  never met: %s %s\n", what, beside);
    }
    return count == 0;
}

static unsigned print_numbers(const struct table *table, const coverage *met)
{
    unsigned lacking = 0;
    printf("%s: how often each number was answered\n ", table->name);
    for (size_t i = 0; i < table->number_count; i++) {
        printf(" %u: %lu%s", table->numbers[i], met->numbers[table->numbers[i]],
               i + 1 < table->number_count ? "," : "\n");
    }
    for (unsigned number = 0; number < 256; number++) {
        char digits[8];
        sprintf(digits, "%u", number);
        if (coverage_knows(met->part, number)) {
            lacking += missing("number", digits, met->numbers[number]);
        } else if (met->numbers[number] != 0) {
            printf("  not a number of this part, but answered: %u\n", number);
            lacking++;
        }
    }
    return lacking;
}

static void print_row(const struct table *table, const coverage *met, size_t row)
{
    printf("  %-12s", table->rows[row]);
    for (size_t column = 0; table->columns[column] != NULL; column++) {
        if (table->columns[column][0] != '\0') {
            printf(" %8lu", met->pairs[row][column]);
        }
    }
    printf("\n");
}

static unsigned print_pairs(const struct table *table, const coverage *met)
{
    unsigned lacking = 0;
    printf("%s: how often each call was judged in each phase or kind\n  %-12s", table->name, "");
    for (size_t column = 0; table->columns[column] != NULL; column++) {
        if (table->columns[column][0] != '\0') {
            printf(" %8s", table->columns[column]);
        }
    }
    printf("\n");
    for (size_t row = 0; table->rows[row] != NULL; row++) {
        print_row(table, met, row);
    }
    for (size_t row = 0; table->rows[row] != NULL; row++) {
        for (size_t column = 0; table->columns[column] != NULL; column++) {
            if (table->columns[column][0] != '\0') {
                lacking +=
                    missing(table->rows[row], table->columns[column], met->pairs[row][column]);
            }
        }
    }
    return lacking;
}

static unsigned print_blocks(const struct table *table, const coverage *met, unsigned long calls)
{
    unsigned lacking = 0;
    printf("%s: %lu calls at full size; how often each of these blocks went\n ", table->name,
           met->large);
    for (size_t i = 0; i < COVERAGE_BLOCKS; i++) {
        printf(" %u: %lu%s", blocks[i], met->blocks[i], i + 1 < COVERAGE_BLOCKS ? "," : "\n");
    }
    for (size_t i = 0; i < COVERAGE_BLOCKS; i++) {
        char digits[8];
        sprintf(digits, "%u", blocks[i]);
        lacking += missing("block", digits, met->blocks[i]);
    }
    if (calls >= MANY_CALLS && met->large < LARGE_LEAST) {
        printf("  fewer than %d calls at full size\n", LARGE_LEAST);
        lacking++;
    }
    return lacking;
}

unsigned coverage_print(const coverage *met, unsigned long calls)
{
    const struct table *table = &tables[met->part];
    unsigned lacking = print_numbers(table, met) + print_pairs(table, met);
    return table->blocks ? lacking + print_blocks(table, met, calls) : lacking;
}
