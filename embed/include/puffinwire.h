/* The checker of reduction steps on Petri nets, from its proved static library.
 *
 * Both calls answer on every input, whatever the bytes and the size of the sheet. Nothing is allocated and nothing is kept between
 * calls; calls on different sheets may run at the same time. docs/EMBED.md says what they leave, docs/REFUSALS.md has the numbers.
 *
 * Link with libpuffinwire.a and the C library. The library is built for x86-64, level v2.
 */
#ifndef PUFFINWIRE_H
#define PUFFINWIRE_H

#include <stddef.h>
#include <stdint.h>

#ifdef __cplusplus
extern "C" {
#endif

/* The numbers of a sheet. */
#define PUFFINWIRE_SHEET_SIZE 12352

/* The layer that raised a refusal. */
#define PUFFINWIRE_NO_LAYER 0
#define PUFFINWIRE_NET 1
#define PUFFINWIRE_READER 2
#define PUFFINWIRE_BOOK 3
#define PUFFINWIRE_SESSION 4

/* What a call tells beside the numbers of the sheet. number, layer, byte and count are 0 where nothing was refused. */
typedef struct puffinwire_report {
    size_t used;          /* bytes of the net stream that were used, the end command included; 0 where the net was refused */
    size_t taken;         /* steps taken */
    size_t byte;          /* where the refused command or step starts: in the net for net and reader, else in the steps */
    size_t count;         /* the commands or steps before it */
    uint64_t standing;    /* the set of standing places: bit p is that of place p */
    uint64_t support;     /* the set of support places */
    uint32_t number;      /* the number of the refusal */
    uint32_t layer;       /* the layer that refused */
    uint32_t transitions; /* the count of transitions */
    uint32_t question;    /* 1, 2 or 3 */
} puffinwire_report;

/* The layout that the library writes. Nothing else compares it with this one. */
typedef char puffinwire_report_layout
    [sizeof(puffinwire_report) == 64 && offsetof(puffinwire_report, used) == 0 && offsetof(puffinwire_report, taken) == 8 &&
             offsetof(puffinwire_report, byte) == 16 && offsetof(puffinwire_report, count) == 24 &&
             offsetof(puffinwire_report, standing) == 32 && offsetof(puffinwire_report, support) == 40 &&
             offsetof(puffinwire_report, number) == 48 && offsetof(puffinwire_report, layer) == 52 &&
             offsetof(puffinwire_report, transitions) == 56 && offsetof(puffinwire_report, question) == 60
         ? 1
         : -1];

/* Reads a net stream into the sheet. A refused stream leaves the empty net; a sheet of another size than PUFFINWIRE_SHEET_SIZE is left
 * as it is.
 *
 * No pointer may be null, not even that of an empty slice; pointers are aligned, and the memory behind them is there and initialized,
 * that of the report too. Sheet and report may not overlap with anything else that is passed, and nobody else uses them during the call.
 */
void puffinwire_read(const uint8_t *net, size_t net_length, uint32_t *sheet, size_t sheet_length, puffinwire_report *report);

/* Reads a net stream into the sheet, and takes steps on the net in a row until they end or one is refused. Of a refused net no step is
 * looked at. What is said of the sheet and of pointers above holds here too.
 */
void puffinwire_reduce(const uint8_t *net, size_t net_length, const uint8_t *steps, size_t steps_length, uint32_t *sheet,
                       size_t sheet_length, puffinwire_report *report);

/* Bytes to point at where there are none. */
static inline const uint8_t *puffinwire_bytes(const uint8_t *bytes, size_t length) {
    static const uint8_t none[1] = {0};
    return bytes == NULL && length == 0 ? none : bytes;
}

/* The same calls with a test of the pointers. They answer 1 where the library was called, and 0, with nothing written, where a pointer
 * is null. A null net or null steps with length 0 pass as no bytes; a null sheet never passes.
 */
static inline int puffinwire_try_read(const uint8_t *net, size_t net_length, uint32_t *sheet, size_t sheet_length,
                                      puffinwire_report *report) {
    net = puffinwire_bytes(net, net_length);
    if (net == NULL || sheet == NULL || report == NULL) {
        return 0;
    }
    puffinwire_read(net, net_length, sheet, sheet_length, report);
    return 1;
}

static inline int puffinwire_try_reduce(const uint8_t *net, size_t net_length, const uint8_t *steps, size_t steps_length,
                                        uint32_t *sheet, size_t sheet_length, puffinwire_report *report) {
    net = puffinwire_bytes(net, net_length);
    steps = puffinwire_bytes(steps, steps_length);
    if (net == NULL || steps == NULL || sheet == NULL || report == NULL) {
        return 0;
    }
    puffinwire_reduce(net, net_length, steps, steps_length, sheet, sheet_length, report);
    return 1;
}

#ifdef __cplusplus
}
#endif

#endif
