/* Judges a table, runs a setup, and replays the trace of the run, all in this process.
 *
 *     judge TABLE SETUP SCHEDULE     prints the verdict and the trace
 */
#include "futurebus.h"

#include <stdio.h>
#include <stdlib.h>
#include <string.h>

struct text {
    uint8_t *bytes;
    size_t length;
};

static struct text room(size_t length) {
    struct text made = {malloc(length ? length : 1), length};
    if (!made.bytes) exit(6);
    return made;
}

static struct text read_file(const char *path) {
    struct text file = room(1 << 20);
    FILE *from = fopen(path, "rb");
    if (!from) exit(4);
    file.length = fread(file.bytes, 1, file.length, from);
    fclose(from);
    return file;
}

/* The text of a run. The call is made again with a longer buffer where it says that the first one is too short. */
static struct text run(struct text setup, struct text schedule, struct fb_answer *answer) {
    struct text trace = room(64);
    fb_run(setup.bytes, setup.length, schedule.bytes, schedule.length, trace.bytes, trace.length, answer);
    if (answer->status == 5) {
        free(trace.bytes);
        trace = room(answer->count);
        fb_run(setup.bytes, setup.length, schedule.bytes, schedule.length, trace.bytes, trace.length, answer);
    }
    trace.length = answer->count;
    return trace;
}

int main(int count, char **words) {
    if (count != 4) return 2;
    struct text table = read_file(words[1]), setup = read_file(words[2]), schedule = read_file(words[3]);
    struct text said = room(1 << 16), ending = room(1 << 16);
    struct fb_answer verdict, ran, replayed;

    fb_check(table.bytes, table.length, said.bytes, said.length, &verdict);
    if (verdict.count > said.length) return 5;
    fwrite(said.bytes, 1, verdict.count, stdout);
    printf("status %d\n", (int)verdict.status);

    struct text trace = run(setup, schedule, &ran);
    fwrite(trace.bytes, 1, trace.length, stdout);
    printf("status %d\n", (int)ran.status);

    fb_replay(setup.bytes, setup.length, trace.bytes, trace.length, ending.bytes, ending.length, &replayed);
    printf("replayed: status %d, and %s\n", (int)replayed.status,
           replayed.count <= trace.length && !memcmp(ending.bytes, trace.bytes + trace.length - replayed.count, replayed.count)
               ? "the ending of the run"
               : "another ending");
    free(table.bytes), free(setup.bytes), free(schedule.bytes);
    free(said.bytes), free(ending.bytes), free(trace.bytes);
    return 0;
}
