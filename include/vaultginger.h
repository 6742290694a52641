/* Vaultginger: exact event separations for interface timing sheets.
 *
 * Every call does a whole job: it takes the text of a sheet, answers, and frees what it took. Nothing is kept between
 * calls, so calls from several threads do not meet. Each call ends, whatever bytes and numbers it is given, and
 * touches nothing but what is handed in; what it does not fill stays as it was.
 *
 * What you owe: a pointer comes with a length and points to so many elements that stay valid and unchanged during the
 * call; no pointer is NULL, not even with length 0; what is filled overlaps nothing else that is handed in.
 *
 * An answer of 0 and above is the result. A negative answer is a refusal: minus its number, as in docs/REFUSALS.md,
 * or VAULTGINGER_NO_MEMORY. The checks are made in the order in which the refusals are listed below, except that
 * memory may be wanting at any time after the number of the rule set is checked.
 */
#ifndef VAULTGINGER_H
#define VAULTGINGER_H

#include <stddef.h>
#include <stdint.h>

#ifdef __cplusplus
extern "C" {
#endif

/* A sheet has at most so many events and bounds: with so many slots a call never answers TOO_FEW_SLOTS. */
#define VAULTGINGER_MAX_EVENTS 64
#define VAULTGINGER_MAX_BOUNDS 256

/* The rule sets that ship. */
#define VAULTGINGER_PLAIN 0
#define VAULTGINGER_VOTE 1
#define VAULTGINGER_GROUP 2

/* Refusals that are not faults of the text. */
#define VAULTGINGER_NO_SUCH_EVENT (-10)
#define VAULTGINGER_NO_SUCH_RULES (-13)
#define VAULTGINGER_TOO_FEW_SLOTS (-16)
#define VAULTGINGER_CONTRADICTORY (-17)
#define VAULTGINGER_TOO_FEW_BYTES (-19)
#define VAULTGINGER_NO_MEMORY (-1000)

/* What is read of an event, settled from a source. */
typedef struct {
    int64_t place;      /* its time in the latest timetable, which has the source at 0 */
    int64_t separation; /* how late it can come after the source; 0 where it is open */
    uint8_t open;       /* 1 where it can come later than any time, else 0 */
} vaultginger_event_reading;

/* A fault of a text: its number, and the line and field where it stands, counted from 1; 0 where it names none. */
typedef struct {
    size_t number;
    size_t line;
    size_t field;
} vaultginger_fault_place;

/* What the program `check` prints for the text, which is loaded with the vote set and 64 slots for needs. A fault, a
 * knot and the verdicts on the needs are all such lines.
 *
 * Answers how many bytes of `out` were written; those after them stay.
 * Refusals, after which no byte is written: NO_MEMORY; TOO_FEW_BYTES. */
int64_t vaultginger_report(const uint8_t *text, size_t text_len, uint8_t *out, size_t out_len);

/* Loads the text under a rule set, with 64 slots for its needs, and settles its sheet from the event `source`.
 *
 * Answers how many events there are, and fills as many of `events`, by event number. No timetable that keeps the
 * bounds puts an event later after the source than its separation, and the places are such a timetable, which puts
 * each event that has a separation exactly there.
 *
 * Refusals:
 *   NO_SUCH_RULES   no rule set has that number.
 *   a fault         of the text: minus its number. `fault[0]`, if there is one, holds the fault. Set its number to 0
 *                   before the call: where it is still 0, the refusal is not a fault of the text.
 *   NO_SUCH_EVENT   the source is no event.
 *   TOO_FEW_SLOTS   fewer slots than events, or fewer bytes in `knot` than bounds, were handed in.
 *   CONTRADICTORY   no timetable keeps the bounds. `knot` holds a byte for each bound, by bound number: 1 for those in
 *                   the knot, else 0. None keeps all the bounds of the knot; without any single one of them, some
 *                   timetable keeps the rest of them.
 *   NO_MEMORY
 * Nothing is filled but what is said here. */
int64_t vaultginger_settle(uint8_t rules, const uint8_t *text, size_t text_len, size_t source,
                           vaultginger_event_reading *events, size_t events_len, uint8_t *knot, size_t knot_len,
                           vaultginger_fault_place *fault, size_t fault_len);

/* Whether every timetable that keeps the bounds has the event `to` not later than the event `from` plus `most`.
 *
 * Answers 1 where it is so (the need is met), 0 where it is not (broken).
 * Refusals: NO_SUCH_RULES; minus the number of a fault of the text; NO_SUCH_EVENT for `from`, then for `to`;
 * CONTRADICTORY; NO_MEMORY. */
int64_t vaultginger_need(uint8_t rules, const uint8_t *text, size_t text_len, size_t from, size_t to, int64_t most);

/* Answers the number of the event with this name, counted from 0.
 * Refusals: NO_SUCH_RULES; minus the number of a fault of the text; NO_SUCH_EVENT; NO_MEMORY. */
int64_t vaultginger_event_number(uint8_t rules, const uint8_t *text, size_t text_len, const uint8_t *name,
                                 size_t name_len);

#ifdef __cplusplus
}
#endif

#endif
