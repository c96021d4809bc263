/* Hiskurdo for C: the readers of journal and plan, the verdict in numbers and in text, and the handover, as crates/hiskurdo
 * exports them.
 *
 * The caller owes, for each pointer with its length: the pointer is not NULL, so many bytes can be read there, and nothing
 * else writes to them during the call. A lent buffer can be written too, and overlaps neither journal nor plan. Nothing
 * checks that. Nothing else is owed: the bytes and the numbers may be any, no alignment is asked for, and journal and plan
 * may overlap.
 *
 * Every call then ends, reads those bytes alone, writes its answer and the lent buffer alone and keeps nothing. What the
 * comments here say of the answer is proved; the contract in crates/hiskurdo/src says it exactly.
 *
 * README.md, "How to read a refusal", says what each refusal and divergence means. Records, steps, boundaries and bytes count
 * from 0. */
#ifndef HISKURDO_H
#define HISKURDO_H

#include <assert.h>
#include <stddef.h>
#include <stdint.h>

/* The version of this header; the programs' --version says the same. */
#define HISKURDO_VERSION "0.2.0"
#define HISKURDO_VERSION_MAJOR 0
#define HISKURDO_VERSION_MINOR 2
#define HISKURDO_VERSION_PATCH 0
#define HISKURDO_VERSION_NUMBER (HISKURDO_VERSION_MAJOR * 1000000 + HISKURDO_VERSION_MINOR * 1000 + HISKURDO_VERSION_PATCH)

/* The first two bytes of a file. */
enum {
    HISKURDO_FORMAT_JOURNAL = 1,
    HISKURDO_FORMAT_PLAN = 2,
};

/* A plan's capability: which clocks the board has. */
enum {
    HISKURDO_CAPABILITY_BOOT_ONLY = 0,
    HISKURDO_CAPABILITY_PERSISTENT = 1,
};

/* The clock of a timer. */
enum {
    HISKURDO_CLOCK_AFTER_BOOT = 1,
    HISKURDO_CLOCK_AT_PERSISTENT_TIME = 2,
};

/* The kind of a record. A step of a plan has the kind of the record that it expects first: 2 an effect, 5 a timer, 9 a gate. */
enum {
    HISKURDO_RECORD_RUN_STARTED = 1,
    HISKURDO_RECORD_EFFECT_SCHEDULED = 2,
    HISKURDO_RECORD_EFFECT_COMPLETED = 3,
    HISKURDO_RECORD_EFFECT_FAILED = 4,
    HISKURDO_RECORD_TIMER_SCHEDULED = 5,
    HISKURDO_RECORD_TIMER_FIRED = 6,
    HISKURDO_RECORD_RUN_COMPLETED = 7,
    HISKURDO_RECORD_RUN_FAILED = 8,
    HISKURDO_RECORD_VERSION_MARKER = 9,
};

/* How the records of a run end. */
enum {
    HISKURDO_ENDING_UNSTARTED = 0,
    HISKURDO_ENDING_DUE = 1,
    HISKURDO_ENDING_DONE = 2,
    HISKURDO_ENDING_OPEN = 3,
    HISKURDO_ENDING_FINISHED = 4,
};

/* The refusals. 21 and 26 come from no file; 60 comes from the replay core, libcore_exports.a, alone. */
enum {
    HISKURDO_REFUSED_JOURNAL_SHORT = 1,
    HISKURDO_REFUSED_JOURNAL_LONG = 2,
    HISKURDO_REFUSED_JOURNAL_FORMAT = 3,
    HISKURDO_REFUSED_JOURNAL_COUNT = 4,
    HISKURDO_REFUSED_JOURNAL_LENGTH = 6,
    HISKURDO_REFUSED_JOURNAL_KIND = 7,
    HISKURDO_REFUSED_JOURNAL_FIELD = 8,
    HISKURDO_REFUSED_JOURNAL_BODIES = 9,
    HISKURDO_REFUSED_PLAN_SHORT = 11,
    HISKURDO_REFUSED_PLAN_LONG = 12,
    HISKURDO_REFUSED_PLAN_FORMAT = 13,
    HISKURDO_REFUSED_PLAN_COUNT = 14,
    HISKURDO_REFUSED_PLAN_CAPABILITY = 15,
    HISKURDO_REFUSED_PLAN_LENGTH = 16,
    HISKURDO_REFUSED_PLAN_KIND = 17,
    HISKURDO_REFUSED_PLAN_FIELD = 18,
    HISKURDO_REFUSED_PLAN_BODIES = 19,
    HISKURDO_REFUSED_ID_EXHAUSTED = 21,
    HISKURDO_REFUSED_NONDETERMINISTIC_WORKFLOW = 22,
    HISKURDO_REFUSED_INCOMPATIBLE_WORKFLOW = 23,
    HISKURDO_REFUSED_MALFORMED_HISTORY = 24,
    HISKURDO_REFUSED_NO_PERSISTENT_CLOCK = 25,
    HISKURDO_REFUSED_CLOCK_WENT_BACKWARDS = 26,
    HISKURDO_REFUSED_BEYOND_PLAN = 31,
    HISKURDO_REFUSED_NO_BYTES = 32,
    HISKURDO_REFUSED_PLAN_ZERO_TIMER = 44,
    HISKURDO_REFUSED_COMPLETED_TOO_SOON = 45,
    HISKURDO_REFUSED_NAMES_NOTHING = 60,
};

/* What differs, with refusal 22. 5, another gate or version, comes from the verdict alone, where the plan has a gate; 7 comes from
 * no file; there is no 3. */
enum {
    HISKURDO_DIVERGENCE_SEQUENCE = 1,
    HISKURDO_DIVERGENCE_KIND = 2,
    HISKURDO_DIVERGENCE_BOUNDARY_KIND = 4,
    HISKURDO_DIVERGENCE_GATE = 5,
    HISKURDO_DIVERGENCE_DEADLINE = 6,
    HISKURDO_DIVERGENCE_BOUNDARY = 7,
    HISKURDO_DIVERGENCE_LENGTH = 8,
    HISKURDO_DIVERGENCE_CRC = 9,
};

/* What is handed over. */
enum {
    HISKURDO_HANDED_COMPLETED = 1,
    HISKURDO_HANDED_FAILED = 2,
    HISKURDO_HANDED_INPUT = 3,
};

/* A buffer of so many bytes has room for the line and for the words of any verdict. */
#define HISKURDO_TEXT_ROOM 128

#ifdef __cplusplus
extern "C" {
#endif

/* What reading says of a file.
 * number 0: it is readable. head is the run number of a journal, the capability of a plan; count is how many records or steps
 * it has; place is 0.
 * Any other number is the refusal: 1 to 9 for a journal (no 5), 11 to 19 and 44 for a plan. place is the entry for 7, 8, 17, 18
 * and 44, else 0; head and count are 0. */
typedef struct {
    uint64_t number;
    uint64_t place;
    uint64_t head;
    uint64_t count;
} HiskurdoReadNumbers;

HiskurdoReadNumbers hiskurdo_read_journal(const uint8_t *file, size_t file_len);
HiskurdoReadNumbers hiskurdo_read_plan(const uint8_t *file, size_t file_len);

/* A record or a step by the fields of its entry, and where its body lies.
 * kind 1 to 9, in a plan 2, 5 or 9: clock, a, s, d and m are the entry's, 0 where the kind has no use for one; s is the number
 * that a record bears, and 0 in a plan, where a step's number is its entry. The body is the len bytes from start of the same file, and
 * lies within it; both are 0 where the kind has no body. next_entry and next_body are what to pass for the one after it.
 * A step of kind 9 is a gate, which expects a marker: a is the gate, d the version, which may be 0, and it has no body.
 * kind 0: nothing stands there. next_entry and next_body are those that were passed, all else is 0. The replay
 * core, libcore_exports.a, refuses it as a record, with 60, and changes nothing. */
typedef struct {
    uint64_t kind;
    uint64_t clock;
    uint64_t a;
    uint64_t s;
    uint64_t d;
    uint64_t m;
    uint64_t start;
    uint64_t len;
    uint64_t next_entry;
    uint64_t next_body;
} HiskurdoEntryNumbers;

/* The record of a journal, the step of a plan, at this entry, its body taken to start at byte body.
 * To walk a readable file, pass entry 0 and body 16 + 24 * count, then what each answer says is next. That gives every record
 * or step in order, each with its whole body. From the header's count on the kind is 0.
 * On any other bytes, and from any other place, the kind is also 0 where it is unknown, where a step is a timer on another clock
 * than 1 or 2, or where the entry, or a body of its length from there, does not lie within the file. A field that no readable
 * file can have is cut to its width, and a timer of 0 in a plan is a step: so read a file before walking it.
 * What kind of step stands at one entry of a readable plan, with its a and d, can be asked without a walk, with body 0; start and
 * next_body say nothing then. */
HiskurdoEntryNumbers hiskurdo_next_record(const uint8_t *file, size_t file_len, uint64_t entry, uint64_t body);
HiskurdoEntryNumbers hiskurdo_next_step(const uint8_t *file, size_t file_len, uint64_t entry, uint64_t body);

/* The verdict on a journal and a plan. What does not apply is 0.
 * refused 0: ending, stop (how many steps are whole: an outcome, a firing or a marker for each), records, calls and failed (how many of
 * the outcomes are failures). The records are a history of the plan with that ending and stop, and with no other. calls is records, and
 * one more when open, or when due at an effect or a timer.
 * Due, step stop comes next, and hiskurdo_next_step(plan, plan_len, stop, 0) tells its kind. Where that is 9, a gate, nothing is to be
 * started and nothing is handed over: the record that comes next is the marker with the number stop and that step's gate and version.
 * A run is never open at a gate.
 * refused 1: number, place (the record, or the record count at the end; for 7, 8, 17, 18 and 44 the entry; else 0), divergence
 * (with 22) and calls. number is 1 to 19 or 44 exactly where a file is not readable, the journal read first; calls is 0 then. Else the
 * records are no history of the plan: the first place of them begin one and the first place + 1 do not, or place is the count of
 * records and the step that is next is a timer for which the plan's capability has no clock. calls is place + 1 then; it is place where
 * that record was refused without a call: with 31, and with 22 where the plan has a gate for it (divergence 1, 4 or 5). */
typedef struct {
    uint64_t refused;
    uint64_t ending;
    uint64_t stop;
    uint64_t records;
    uint64_t number;
    uint64_t place;
    uint64_t divergence;
    uint64_t calls;
    uint64_t failed;
} HiskurdoVerdictNumbers;

HiskurdoVerdictNumbers hiskurdo_verdict(const uint8_t *journal, size_t journal_len, const uint8_t *plan, size_t plan_len);

/* The same verdict as text in a lent buffer: the line that the program verdict prints, with its line feed; the plain words
 * that the program index prints after it, without one. ASCII, no zero byte at the end.
 * The answer is the length of the text, which then stands first in the buffer; the bytes after it are as they were.
 * 0: the text is longer than the buffer, and the buffer is as it was. With HISKURDO_TEXT_ROOM bytes that does not happen. */
uint64_t hiskurdo_verdict_line(const uint8_t *journal, size_t journal_len, const uint8_t *plan, size_t plan_len,
                               uint8_t *text, size_t text_len);
uint64_t hiskurdo_verdict_words(const uint8_t *journal, size_t journal_len, const uint8_t *plan, size_t plan_len,
                                uint8_t *text, size_t text_len);

/* The version of the archive. It is HISKURDO_VERSION_NUMBER where header and archive are of one version. */
uint64_t hiskurdo_version(void);

/* What is handed over at a boundary.
 * number 0: the len bytes from start, which lie within their file; len may be 0. what 1, completed, or 2, failed: the whole
 * body of that boundary's outcome record, in the journal. what 3, input: the whole body of that step's entry, in the plan.
 * Any other number is a refusal: the verdict's own, or 32 where this boundary has no bytes, as each timer and each gate. what, start
 * and len are 0.
 * An outcome is handed over at each effect before the stop; the input at the stop, where that is an effect and due or open. */
typedef struct {
    uint64_t number;
    uint64_t what;
    uint64_t start;
    uint64_t len;
} HiskurdoHandoverNumbers;

HiskurdoHandoverNumbers hiskurdo_handover(const uint8_t *journal, size_t journal_len, const uint8_t *plan, size_t plan_len,
                                          uint64_t boundary);

/* The layout: numbers of 8 bytes without gaps. link/run holds their names and order to crates/hiskurdo/src, and the numbers
 * that have a name here to crates/ and README.md. */
static_assert(sizeof(HiskurdoReadNumbers) == 32 && offsetof(HiskurdoReadNumbers, count) == 24, "ReadNumbers");
static_assert(sizeof(HiskurdoEntryNumbers) == 80 && offsetof(HiskurdoEntryNumbers, next_body) == 72, "EntryNumbers");
static_assert(sizeof(HiskurdoVerdictNumbers) == 72 && offsetof(HiskurdoVerdictNumbers, failed) == 64, "VerdictNumbers");
static_assert(sizeof(HiskurdoHandoverNumbers) == 32 && offsetof(HiskurdoHandoverNumbers, len) == 24, "HandoverNumbers");
static_assert(sizeof(size_t) == 8 && sizeof(void *) == 8, "the library is for x86-64");

#ifdef __cplusplus
}
#endif

#endif
