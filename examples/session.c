/* The session that paper 01 prints, through the firmware library: two distances, a move of 1,000 ticks, readings. The
   entry of the move goes to a journal, which is printed at the end. */
#include <inttypes.h>
#include <stdio.h>
#include <string.h>

#include "temixohuel.h"

/* The buffer lent to bytes and ticks; a reply in it is printed with a line feed for 0D. */
static uint8_t reply[TEMIXOHUEL_REPLY];

static void print_reply(size_t count) {
    for (size_t at = 0; at < count; at++)
        putchar(reply[at] == '\r' ? '\n' : reply[at]);
}

static temixohuel_controller receive(temixohuel_controller bench, uint8_t b) {
    temixohuel_byte_answer answer = temixohuel_byte(bench, reply, sizeof reply, b);
    print_reply(answer.length);
    return answer.controller;
}

static temixohuel_controller line(temixohuel_controller bench, const char *text) {
    for (size_t at = 0; at < strlen(text); at++)
        bench = receive(bench, (uint8_t)text[at]);
    return receive(bench, '\r');
}

/* The journal and its length. An entry that has no space is left out: the length stays. */
static uint8_t journal[40 * TEMIXOHUEL_ENTRY];
static size_t length;

/* The journal, an entry to a line: ticks moved, cause, travels. */
static void print_journal(void) {
    temixohuel_read_answer move = temixohuel_read(journal, length, 0);
    for (; move.found; move = temixohuel_read(journal, length, move.next)) {
        printf("journal: %" PRIu64 " %d", move.entry.ticks, move.entry.cause);
        for (int axis = 0; axis < TEMIXOHUEL_AXES; axis++)
            printf(" %" PRId32, move.entry.travels[axis]);
        putchar('\n');
    }
}

/* Ticks with one input word; the block of a W line, if it comes, and the sums of the signed pulses are printed. */
static temixohuel_controller ticks(temixohuel_controller bench, int count, uint32_t word) {
    int sums[TEMIXOHUEL_AXES] = {0};
    for (int tick = 0; tick < count; tick++) {
        temixohuel_tick_answer answer = temixohuel_tick(bench, reply, sizeof reply, word);
        print_reply(answer.length);
        for (int axis = 0; axis < TEMIXOHUEL_AXES; axis++)
            sums[axis] += answer.pulses[axis];
        if (answer.ended)
            length = temixohuel_append(journal, sizeof journal, length, answer.entry).next;
        bench = answer.controller;
    }
    printf("%d %d %d %d %d\n", sums[0], sums[1], sums[2], sums[3], sums[4]);
    return bench;
}

int main(void) {
    const char *orders[] = {"P0000001", "P0180001", "P08F4240", "P0900FFF", "Q080"};
    temixohuel_controller bench = temixohuel_power_on(0).controller;
    for (size_t at = 0; at < sizeof orders / sizeof *orders; at++)
        bench = line(bench, orders[at]);
    bench = ticks(bench, 1000, 0);
    bench = line(bench, "q01");
    line(bench, "Q06");
    print_journal();
    return 0;
}
