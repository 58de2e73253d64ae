/* The commands of futurebus for programs in C. Made by tools/header from crates/futurebus_c: do not edit.
 *
 * A text comes as a pointer to its bytes and their number. No pointer is null, also that of an empty text. What a call
 * writes to (a buffer, an answer) overlaps nothing else that the call is given. A text may have any bytes, and
 * needs no byte of 0 at its end; none is written at the end of a buffer.
 * No call opens a file, prints, or keeps a text; calls on different memory may be made from different threads.
 *
 * The statuses are those of the program:
 *   0  done
 *   1  a table or a trace is refused
 *   3  a text is not in its grammar
 *   5  the buffer is shorter than the text, of which it has the first bytes
 *   6  memory ran out
 *   7  a text is longer than the program takes
 *   9  nothing of a table is in the class
 */
#ifndef FUTUREBUS_H
#define FUTUREBUS_H

#include <stddef.h>
#include <stdint.h>

#ifdef __cplusplus
extern "C" {
#endif

/* The status with which a call ended, and the length of its text. */
struct fb_answer {
    uint64_t status;
    uint64_t count;
};

/* The verdict on each table of a text of tables or of a setup. */
void fb_check(const uint8_t *text, size_t text_length, uint8_t *buffer, size_t buffer_length,
    struct fb_answer *answer);

/* The setup of a text, written again. */
void fb_show(const uint8_t *setup, size_t setup_length, uint8_t *buffer, size_t buffer_length,
    struct fb_answer *answer);

/* The largest part of a table that is in the class. */
void fb_narrow(const uint8_t *table, size_t table_length, uint8_t *buffer, size_t buffer_length,
    struct fb_answer *answer);

/* The run of a setup by a schedule, and its ending. */
void fb_run(const uint8_t *setup, size_t setup_length, const uint8_t *schedule,
    size_t schedule_length, uint8_t *buffer, size_t buffer_length, struct fb_answer *answer);

/* Whether a trace is that of a complete run of a setup, and its ending. */
void fb_replay(const uint8_t *setup, size_t setup_length, const uint8_t *trace, size_t trace_length,
    uint8_t *buffer, size_t buffer_length, struct fb_answer *answer);

/* What each board and memory did on the bus in a run by a schedule. */
void fb_traffic(const uint8_t *setup, size_t setup_length, const uint8_t *schedule,
    size_t schedule_length, uint8_t *buffer, size_t buffer_length, struct fb_answer *answer);

/* The run of a setup by the schedule of a number, and its ending. */
void fb_run_seeded(const uint8_t *setup, size_t setup_length, uint64_t seed, uint8_t *buffer,
    size_t buffer_length, struct fb_answer *answer);

/* What each board and memory did on the bus in a run by the schedule of a number. */
void fb_traffic_seeded(const uint8_t *setup, size_t setup_length, uint64_t seed, uint8_t *buffer,
    size_t buffer_length, struct fb_answer *answer);

/* The generated setup of a number. */
void fb_make(uint64_t seed, uint8_t *buffer, size_t buffer_length, struct fb_answer *answer);

/* The counts over the run of a generated setup. */
void fb_tally(uint64_t seed, uint8_t *buffer, size_t buffer_length, struct fb_answer *answer);

#ifdef __cplusplus
}
#endif

#endif
