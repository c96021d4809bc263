/* Reads run.jnl and run.pln of a folder: the journal's records, the verdict in numbers and in words, and the input that is
 * handed over at the stop, or the marker that a gate expects there.
 * Status 0: the verdict accepts; 1: it refuses; 2: no folder was given, or header and archive are not of one version. */
#include <inttypes.h>
#include <stdbool.h>
#include <stdio.h>

#include "hiskurdo.h"

/* One byte more than a file may have, so that a longer one is seen to be. */
enum { ROOM = 32769 };

typedef struct {
    uint8_t bytes[ROOM];
    size_t len;
} File;

static bool load(File *file, const char *folder, const char *name) {
    char path[4096];
    int length = snprintf(path, sizeof path, "%s/%s", folder, name);
    if (length < 0 || (size_t)length >= sizeof path) return false;
    FILE *stream = fopen(path, "rb");
    if (stream == NULL) return false;
    file->len = fread(file->bytes, 1, ROOM, stream);
    bool whole = !ferror(stream);
    fclose(stream);
    return whole;
}

/* A file that cannot be read counts as one of 0 bytes. */
static void load_or_say(File *file, const char *folder, const char *name) {
    if (load(file, folder, name)) return;
    file->len = 0;
    fprintf(stderr, "%s/%s cannot be read and counts as 0 bytes\n", folder, name);
}

static void print_records(const File *journal) {
    HiskurdoReadNumbers read = hiskurdo_read_journal(journal->bytes, journal->len);
    if (read.number != 0) {
        printf("journal: refused, number %" PRIu64 ", place %" PRIu64 "\n", read.number, read.place);
        return;
    }
    printf("journal: run %" PRIu64 ", records %" PRIu64 "\n", read.head, read.count);
    HiskurdoEntryNumbers at = hiskurdo_next_record(journal->bytes, journal->len, 0, 16 + 24 * read.count);
    while (at.kind != 0) {
        printf("record %" PRIu64 ": kind %" PRIu64 ", number %" PRIu64 ", body %" PRIu64 "\n", at.next_entry - 1, at.kind,
               at.s, at.len);
        at = hiskurdo_next_record(journal->bytes, journal->len, at.next_entry, at.next_body);
    }
}

static void print_verdict(HiskurdoVerdictNumbers verdict) {
    static const char *const endings[] = {
        [HISKURDO_ENDING_UNSTARTED] = "unstarted", [HISKURDO_ENDING_DUE] = "due",           [HISKURDO_ENDING_DONE] = "done",
        [HISKURDO_ENDING_OPEN] = "open",           [HISKURDO_ENDING_FINISHED] = "finished",
    };
    if (verdict.refused != 0) {
        printf("verdict: refused, number %" PRIu64 ", place %" PRIu64 ", divergence %" PRIu64 ", calls %" PRIu64 "\n",
               verdict.number, verdict.place, verdict.divergence, verdict.calls);
        return;
    }
    printf("verdict: %s, stop %" PRIu64 ", records %" PRIu64 ", calls %" PRIu64 ", failed %" PRIu64 "\n", endings[verdict.ending],
           verdict.stop, verdict.records, verdict.calls, verdict.failed);
}

static void print_texts(const File *journal, const File *plan) {
    uint8_t text[HISKURDO_TEXT_ROOM];
    uint64_t len = hiskurdo_verdict_line(journal->bytes, journal->len, plan->bytes, plan->len, text, sizeof text);
    printf("line: %.*s", (int)len, (const char *)text);
    len = hiskurdo_verdict_words(journal->bytes, journal->len, plan->bytes, plan->len, text, sizeof text);
    printf("words: %.*s\n", (int)len, (const char *)text);
}

static void print_input(const File *journal, const File *plan, uint64_t stop) {
    HiskurdoHandoverNumbers given = hiskurdo_handover(journal->bytes, journal->len, plan->bytes, plan->len, stop);
    if (given.number != 0) {
        printf("handover: none at step %" PRIu64 ", number %" PRIu64 "\n", stop, given.number);
        return;
    }
    printf("handover: input of step %" PRIu64 ", %" PRIu64 " bytes from byte %" PRIu64 " of the plan\n", stop, given.len,
           given.start);
}

/* A step that is due or open. Only the step's kind, a and d are looked at, so its body may be taken to start at 0. */
static void print_step(const File *journal, const File *plan, uint64_t stop) {
    HiskurdoEntryNumbers step = hiskurdo_next_step(plan->bytes, plan->len, stop, 0);
    if (step.kind != HISKURDO_RECORD_VERSION_MARKER) {
        print_input(journal, plan, stop);
        return;
    }
    printf("gate: write a marker with number %" PRIu64 ", gate %" PRIu64 ", version %" PRIu64 "\n", stop, step.a, step.d);
}

int main(int argc, char **argv) {
    static File journal, plan;
    if (argc != 2) {
        fprintf(stderr, "usage: example FOLDER (with run.jnl and run.pln)\n");
        return 2;
    }
    if (hiskurdo_version() != HISKURDO_VERSION_NUMBER) {
        fprintf(stderr, "hiskurdo.h is of version " HISKURDO_VERSION ", the archive of another\n");
        return 2;
    }
    load_or_say(&journal, argv[1], "run.jnl");
    load_or_say(&plan, argv[1], "run.pln");
    print_records(&journal);
    HiskurdoVerdictNumbers verdict = hiskurdo_verdict(journal.bytes, journal.len, plan.bytes, plan.len);
    print_verdict(verdict);
    print_texts(&journal, &plan);
    if (verdict.refused != 0) return 1;
    if (verdict.ending == HISKURDO_ENDING_DUE || verdict.ending == HISKURDO_ENDING_OPEN) print_step(&journal, &plan, verdict.stop);
    return 0;
}
