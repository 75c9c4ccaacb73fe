/* Reads a file with a net stream and the bytes of steps behind it, reduces the net, and prints what is left of it.
 *
 * usage: reduce FILE
 */
#include <stdio.h>
#include <stdlib.h>

#include "puffinwire.h"

enum { MOST_BYTES = 1 << 20 };

/* Reads a file of at most MOST_BYTES bytes, and answers their count; a file that is longer or cannot be read ends the program. */
static size_t read_file(const char *name, uint8_t *bytes) {
    FILE *file = fopen(name, "rb");
    if (file == NULL) {
        perror(name);
        exit(2);
    }
    size_t length = fread(bytes, 1, MOST_BYTES, file);
    if (ferror(file) || (length == MOST_BYTES && fgetc(file) != EOF)) {
        fprintf(stderr, "%s: cannot be read, or is too long\n", name);
        exit(2);
    }
    fclose(file);
    return length;
}

static void print_arcs(const char *word, unsigned transition, const uint32_t *weights) {
    for (unsigned place = 0; place < 64; place++) {
        if (weights[place] != 0) {
            printf("%s %u %u %u\n", word, transition, place, (unsigned)weights[place]);
        }
    }
}

static void print_net(const puffinwire_report *report, const uint32_t *sheet) {
    for (unsigned place = 0; place < 64; place++) {
        if (report->standing >> place & 1) {
            printf("place %u %u\n", place, (unsigned)sheet[place]);
        }
    }
    for (unsigned transition = 0; transition < report->transitions; transition++) {
        const uint32_t *row = sheet + 64 + 128 * transition;
        print_arcs("take", transition, row);
        print_arcs("put", transition, row + 64);
    }
}

/* Prints what became of the steps, which begin at the given byte of the file. */
static void print_steps(const puffinwire_report *report, size_t start) {
    printf("taken %zu\n", report->taken);
    if (report->number != 0) {
        printf("refused %u %zu\n", (unsigned)report->number, start + report->byte);
    }
}

int main(int argc, char **argv) {
    static uint8_t bytes[MOST_BYTES];
    static uint32_t sheet[PUFFINWIRE_SHEET_SIZE];
    static puffinwire_report report;
    if (argc != 2) {
        fprintf(stderr, "usage: reduce FILE\n");
        return 2;
    }
    size_t length = read_file(argv[1], bytes);
    if (!puffinwire_try_read(bytes, length, sheet, PUFFINWIRE_SHEET_SIZE, &report)) {
        return 2;
    }
    if (report.number != 0) {
        printf("net %u %zu\n", (unsigned)report.number, report.byte);
        return 1;
    }
    size_t start = report.used;
    if (!puffinwire_try_reduce(bytes, start, bytes + start, length - start, sheet, PUFFINWIRE_SHEET_SIZE, &report)) {
        return 2;
    }
    print_steps(&report, start);
    print_net(&report, sheet);
    return 0;
}
