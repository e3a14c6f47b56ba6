/* Jugastilum for C programs: a watcher of a plant by a rule in linear temporal logic.

   Link with libjugastilum.a (`tools/build jugastilum`). No function allocates, keeps a pointer or reads a clock: all that is kept between calls stands
   in a box of the caller's. docs/CONTROLLER.md tells how to build, what each answer means and how much stack a call takes.

   The functions are proved; that this header fits them is not. tests/c compares the two, function by function. */
#ifndef JUGASTILUM_H
#define JUGASTILUM_H

#include <stddef.h>
#include <stdint.h>

#ifdef __cplusplus
extern "C" {
#endif

/* What a call answers. `number` is 0 where the call is accepted, and else the number of the refusal, with its `place`.
   `count` and `value` are what the call's own comment says; what it does not name is 0. */
typedef struct {
    uint64_t number;
    uint64_t place;
    uint64_t count;
    uint64_t value;
} jug_answer;

/* A plant, a rule, what was prepared of them, and a monitor. It holds no pointer: it may be copied, written to a file and handed in again.
   Any content may stand in it: a call looks first whether it holds a table and a rule, and refuses if not. */
typedef struct {
    uint64_t word[384];
} jug_box;

/* The verdicts: in `value` of an answer, and in the bytes that jug_watch_log writes. */
enum {
    JUG_INCONCLUSIVE = 0,
    JUG_TRUE = 1,
    JUG_FALSE = 2,
    JUG_OUT_OF_MODEL = 3
};

/* A witness asks for a buffer of at least so many bytes. */
#define JUG_WITNESS 49152

/* A whole log. One byte for each line is written to `verdicts`, what lies beyond them stays.
   Accepted: `count` = lines. Refused before any event by 3, 2 (table), 4 to 8 (rule), 12 (log), 11 (fewer bytes than lines): nothing is written.
   Refused at an event by 10 or 16: `place` = where its line begins, `count` = lines before it, whose verdicts are written. */
jug_answer jug_watch_log(const uint8_t *table, size_t table_len, const uint8_t *rule, size_t rule_len,
                         const uint8_t *log, size_t log_len, uint8_t *verdicts, size_t verdicts_len);

/* Reads a table and a rule, prepares, and opens a monitor in `box`, whatever was in it.
   Accepted: `value` = verdict, `count` = states in which the plant can be. Refused by 3, 2 (table), 4 to 8 (rule): the box stays as it was. */
jug_answer jug_open(const uint8_t *table, size_t table_len, const uint8_t *rule, size_t rule_len, jug_box *box);

/* What the lamp shows now. Accepted: as jug_open. Refused by 1, 2, 9: the box holds no table, no rule or no monitor of theirs. What was prepared is not looked at here:
   jug_step does that. */
jug_answer jug_look(const jug_box *box);

/* One event: `see` has the signals that were seen, `val` those of them that were on, `new_` is 0, or else the rule is judged anew from this event.
   Accepted: as jug_open. Refused by 1, 2, 9 (the box), 10 (the event), 16 (all numbers are used up): the box stays as it was. */
jug_answer jug_step(jug_box *box, uint16_t see, uint16_t val, uint8_t new_);

/* The same for an event with a number. Up to 16 numbers may be missing before it: so many events are taken first of which nothing was seen.
   Refused by 1, 2, 9, 10, and by 16 where the number goes back, comes again, or skips over more. */
jug_answer jug_step_numbered(jug_box *box, uint32_t num, uint16_t see, uint16_t val, uint8_t new_);

/* How a run goes on from now that breaks the rule (`keeps` 0) or keeps it (any other): one byte for a state, the stem first and then the loop.
   Accepted: `value` = states of the stem, `count` = states of the loop. Refused by 1, 2, 9 (the box), 11 (fewer than JUG_WITNESS bytes), 13 (there is no such run). */
jug_answer jug_goes_on(const jug_box *box, uint8_t keeps, uint8_t *states, size_t states_len);

/* A table's text has at most so many bytes. */
#define JUG_TABLE 2477

/* Writes a table as its text, in the form that jug_open reads, at the beginning of `text`; what lies behind stays. `just` is the number of fairness sets.
   Accepted: `count` = bytes of the text. Refused by 1 (a count out of range, or a list of another length than its count), 2 (a bit beyond the counts),
   11 (the text does not fit): nothing is written. */
jug_answer jug_write_table(uint64_t props, uint64_t states, uint64_t start, uint64_t just, const uint64_t *fair, size_t fair_len,
                           const uint16_t *label, size_t label_len, const uint64_t *next, size_t next_len, uint8_t *text, size_t text_len);

/* The keys of a settings sheet. */
enum {
    JUG_EDITION = 1,
    JUG_RULE = 2,
    JUG_CLOSING = 3
};

/* Where the value of a key stands: in the local sheet if it has the line, otherwise in the shared one. Nothing is copied: `place` is the value's offset in that sheet.
   Accepted: `value` = the sheet, 1 local or 2 shared, `place` = where the value begins, `count` = its bytes, without the LF.
   Refused by 9 (another key), 18 (a sheet is not of the form: `value` = which one, `place` = where), 17 (no sheet has the key). */
jug_answer jug_setting(const uint8_t *local, size_t local_len, const uint8_t *shared, size_t shared_len, uint8_t key);

/* A settings sheet has at most so many bytes. */
#define JUG_SHEET 1024

/* Up to eight older sheets, by their own edition. All zero is the empty store. It holds no pointer, and any content may stand in it:
   word 0 counts the sheets, words 1 to 8 are their lengths, and from word 9 on each has 128 words of eight bytes, the first byte the least. */
typedef struct {
    uint64_t word[1040];
} jug_store;

/* Keeps a sheet; of eight the oldest goes. Accepted: `count` = sheets kept.
   Refused by 9 (the store counts more than eight sheets, or more than JUG_SHEET bytes of one), 18 (the sheet is not of the form: `value` = 1, `place` = where),
   17 (it has no edition), 19 (its edition is not above the newest): the store stays as it was. */
jug_answer jug_keep_sheet(jug_store *store, const uint8_t *sheet, size_t sheet_len);

/* Copies out the sheet of an edition, byte for byte; what lies behind it in `out` stays. Accepted: `count` = its bytes.
   Refused by 9 (as above), 20 (that edition is not kept), 11 (the sheet does not fit): nothing is written. */
jug_answer jug_kept_sheet(const jug_store *store, uint64_t edition, uint8_t *out, size_t out_len);

/* Two verdicts more, with which a day may end. */
enum {
    JUG_PRESUMABLY_TRUE = 4,
    JUG_PRESUMABLY_FALSE = 5
};

/* What a day ends with, by an edition of the closing verdicts: edition 1 is the last verdict. Edition 2 is the same where that is decided. Where it is inconclusive, and each event
   since the last restart (its own among them) saw all propositions of the rule, it is presumed by finite-trace logic over these events whether the rule was kept.
   Accepted: `value` = JUG_INCONCLUSIVE to JUG_PRESUMABLY_FALSE. Refused by 3, 2 (table), 4 to 8 (rule), 12 (log); at an event by 10 or 16: `place` = where its line begins,
   `count` = lines before it; then by 21 (another edition). */
jug_answer jug_close_log(const uint8_t *table, size_t table_len, const uint8_t *rule, size_t rule_len,
                         const uint8_t *log, size_t log_len, uint64_t edition);

/* A fixed machine is worked out in at least so many words, and has at most so many bytes. */
#define JUG_MACHINE_WORK 49152
#define JUG_MACHINE 14336

/* Writes the table and the rule as a fixed machine, at the beginning of `machine`; what lies behind stays. For at most 3 signals. A row is a byte for the verdict, a byte
   for the states left, and a byte for each event: the row that comes next. Row 0 is the opening. The legal events stand by see, within
   one see by val, and each first without restart: 6, 18 or 54. No machine with fewer rows shows the same.
   Accepted: `count` = rows, `value` = bytes of a row. Refused by 3, 2 (table), 4 to 8 (rule), 1 (more than 3 signals), 11 (fewer than JUG_MACHINE_WORK words): nothing is
   written. Refused by 15 (more than 256 states of the monitor), 11 (the machine does not fit): nothing is written but the words. From there on, accepted too, all words end 0. */
jug_answer jug_machine(const uint8_t *table, size_t table_len, const uint8_t *rule, size_t rule_len, uint64_t *work, size_t work_len,
                       uint8_t *machine, size_t machine_len);

/* One event in a machine, whose bytes are lent exactly: from `row` to the next. `props` is the number of signals.
   Accepted: `place` = the next row, `value` = verdict, `count` = states left. Refused by 1 (`props` is not 1 to 3), 9 (the bytes are not whole rows, there is no such row,
   or the cell or the row that it leads to is none), 10 (the event). */
jug_answer jug_machine_step(const uint8_t *machine, size_t machine_len, uint64_t props, uint64_t row, uint16_t see, uint16_t val, uint8_t new_);

/* An event of at most 3 signals as a byte: see times 16, val times 2, and 1 for a restart; 255, which is no event, where see or val has no such signals. */
#define JUG_EVENT(see, val, new_) ((uint8_t)((see) > 7 || (val) > 7 ? 255 : (see) << 4 | (val) << 1 | ((new_) ? 1 : 0)))

/* Many events in a machine, a byte each, one after another from `row` on; `shown` gets two bytes for each: the verdict, and the states left. What lies behind stays.
   Accepted: `count` = events, `place` = the row behind the last. Refused by 1, 9 (as jug_machine_step is) and 11 (`shown` has not two bytes for each event): nothing is
   written, and `place` = `row`. Refused at an event as jug_machine_step refuses it, by 10 or 9: `count` = events before it, which are written, and `place` = the row
   that they led to. */
jug_answer jug_machine_steps(const uint8_t *machine, size_t machine_len, uint64_t props, uint64_t row, const uint8_t *events, size_t events_len,
                             uint8_t *shown, size_t shown_len);

/* A day sheet: a line for each stretch between restarts, up to 64. All zero is the empty sheet, for a box that was just opened.
   It holds no pointer: it may be written to a file beside its box and handed in again with it. */
typedef struct {
    uint64_t word[260];
} jug_day;

/* The text of a sheet has at most so many bytes, whatever words are in it; where they are those of events, 4800. */
#define JUG_DAY_SHEET 6080

/* One event, as jug_step takes it, or jug_step_numbered where `numbered` is not 0, and noted in `day`: events that were not received are noted before it.
   Accepted: as jug_open. Refused by 1, 2, 9 (the box, or a day that counts more than 64 stretches), 10, 16, and by 23 where the event would begin a 65th:
   box and day stay as they were. */
jug_answer jug_note(jug_box *box, jug_day *day, uint8_t numbered, uint32_t num, uint16_t see, uint16_t val, uint8_t new_);

/* Writes the sheet at the beginning of `text`, a line for each stretch: `first=0 events=2 verdict=true decided=1` and LF, or `decided=-` where the verdict never was
   true or false; what lies behind stays. Accepted: `count` = bytes of the text. Refused by 9 (a day as above), 11 (the text does not fit): nothing is written. */
jug_answer jug_day_sheet(const jug_day *day, uint8_t *text, size_t text_len);

/* The most states of a run that is shown, stem and loop together. */
#define JUG_RUN 4096

/* What is found of a report, in `value`, and of a wrong run the first rule that it fails, in `place`. */
enum { JUG_ACCEPTED = 0, JUG_WRONG_RUN = 1, JUG_WRONG_VERDICT = 2 };
enum { JUG_START = 1, JUG_MOVES = 2, JUG_FAIRNESS = 3, JUG_AGREEMENT = 4, JUG_VALUE = 5 };

/* Checks a neighbour's report: a claimed verdict, and complete runs from the log's first event on, a byte for each state, one that keeps the rule and one that breaks it. That it is
   inconclusive needs both, that it is true or false needs the one of that kind; a run that the claim does not need is not looked at, and may have no state.
   `value` = JUG_ACCEPTED; or JUG_WRONG_RUN, `count` = 1 for the run that keeps the rule and 2 for the other, `place` = the first rule that it fails; or JUG_WRONG_VERDICT.
   Refused by 3, 2 (table), 4 to 8 (rule), 12 (log), at an event by 10 or 16 as jug_watch_log, then by 9 (no such claim) and 22 (a needed run has more than JUG_RUN states). */
jug_answer jug_judge(const uint8_t *table, size_t table_len, const uint8_t *rule, size_t rule_len, const uint8_t *log, size_t log_len, uint8_t claim,
                     const uint8_t *keep_stem, size_t keep_stem_len, const uint8_t *keep_loop, size_t keep_loop_len,
                     const uint8_t *break_stem, size_t break_stem_len, const uint8_t *break_loop, size_t break_loop_len);

/* A scrap of a log that comes by radio: any bytes, also none, cut anywhere. What is not a whole line yet is kept in the box, which jug_open sets to a log of no bytes.
   An event has its answer as soon as its line is whole: a byte from the beginning of `verdicts`; what lies behind stays. Steps may be taken between scraps.
   Accepted: `count` = verdicts of this scrap.
   Refused by 1, 2, 9 (the box; what it keeps of a line begins none); by what an earlier scrap was refused by, if that was an event or a byte; by 11 (more LFs in the scrap
   than bytes in `verdicts`); by 24 (the log would have more than 4,294,967,295 bytes): nothing is taken or written, and the box stays as it was.
   Then by 12 (a byte that begins no line, at its place in the whole log), 10 and 16 (an event, at the offset of its line in the whole log): `count` = verdicts of this
   scrap before it, which are written. From then on every scrap, and jug_end, is refused so. */
jug_answer jug_take(jug_box *box, const uint8_t *scrap, size_t scrap_len, uint8_t *verdicts, size_t verdicts_len);

/* Whether the log may end here. It changes nothing, and more scraps may come. Refused by 1, 2, 9; by what a scrap was refused by, if that was an event or a byte;
   by 12 at the log's length where its last line is not whole. */
jug_answer jug_end(const jug_box *box);

#ifdef __cplusplus
}
#endif

#endif
