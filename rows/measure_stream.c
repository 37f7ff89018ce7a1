// Writes lawful beats of some caches on one manager, as fragments one after the other, for rows/measure_stream:
//
//   measure_stream BEATS CLIENTS PLANTED
//
// A window of 4,096 cycles is a fragment of each link, l0, l1 and so on. The clients acquire, give up and release 256 blocks at
// random, one operation after the other, and each is answered as it must be. Behind beat PLANTED (0: nowhere) l0 has a Get that lies
// askew. Where 1,000,000 beats are written, and at the end, it writes the count on standard error and waits for a line on standard
// input, so that whoever reads can be looked at while the input is open.
#define _GNU_SOURCE
#include <stdio.h>
#include <stdlib.h>
#include <string.h>
#include <unistd.h>

enum { MOST_CLIENTS = 16, BLOCKS = 256, WINDOW = 4096, ROOM = 1 << 19 };
enum { NOTHING, BRANCH, TRUNK };

static char text[MOST_CLIENTS][ROOM];
static char *place[MOST_CLIENTS];
static unsigned char held[MOST_CLIENTS][BLOCKS];
static int clients;
static unsigned long long window, cycle, beats, random_state = 88172645463325252ull;

// The cycle in decimal, to the right, and the words for numbers below 64 and for the blocks' addresses.
static char digits[24], *first_digit;
static char decimals[64][4], addresses[BLOCKS][8];

static unsigned random_of(unsigned limit) {
    random_state ^= random_state << 13;
    random_state ^= random_state >> 7;
    random_state ^= random_state << 17;
    return (unsigned)((random_state >> 11) % limit);
}

static void set_cycle(unsigned long long value) {
    cycle = value;
    memset(digits, '0', sizeof digits);
    first_digit = digits + sizeof digits;
    do *--first_digit = (char)('0' + value % 10);
    while (value /= 10);
}

static void next_cycle(void) {
    char *at = digits + sizeof digits - 1;
    cycle++;
    while (*at == '9') *at-- = '0';
    ++*at;
    if (at < first_digit) first_digit = at;
}

static void begin(void) {
    for (int link = 0; link < clients; link++)
        place[link] = text[link] + sprintf(text[link], "fragment l%d %llu %llu %llu\n", link, window + 1, window * WINDOW, (window + 1) * WINDOW - 1);
}

static void write_all(const char *from, size_t size) {
    while (size > 0) {
        ssize_t done = write(1, from, size);
        if (done <= 0) exit(1);
        from += done;
        size -= (size_t)done;
    }
}

// Ends the fragments of the window.
static void flush(void) {
    for (int link = 0; link < clients; link++) {
        memcpy(place[link], "end\n", 4);
        write_all(text[link], (size_t)(place[link] + 4 - text[link]));
    }
    window++;
    begin();
}

// A beat of a link in this cycle: what stands between front and back are the words for two numbers and an address.
static void beat(int link, const char *front, const char *one, const char *two, const char *back) {
    while (cycle >= (window + 1) * WINDOW) flush();
    size_t size = (size_t)(digits + sizeof digits - first_digit);
    memcpy(place[link], first_digit, size);
    place[link] = stpcpy(stpcpy(stpcpy(stpcpy(place[link] + size, front), one), two), back);
    beats++;
}

static void release(int me, unsigned block, unsigned source) {
    beat(me, held[me][block] == TRUNK ? " C 6 1 6" : " C 6 2 6", decimals[source], addresses[block], " 0\n");
    next_cycle();
    beat(me, " D 6 0 6", decimals[source], "", " 0 0 0\n");
    held[me][block] = NOTHING;
}

// A Probe of each client that stands in the way, then the Grant.
static void acquire(int me, unsigned block, unsigned source, unsigned sink, int writes) {
    const char *asked = held[me][block] == BRANCH ? " A 6 2 6" : writes ? " A 6 1 6" : " A 6 0 6";
    beat(me, asked, decimals[source], addresses[block], " ff 0\n");
    for (int other = 0; other < clients; other++) {
        int theirs = held[other][block];
        if (other == me || theirs == NOTHING || (theirs == BRANCH && !writes)) continue;
        next_cycle();
        beat(other, writes ? " B 6 2 6 0" : " B 6 1 6 0", addresses[block], "", " ff 0\n");
        next_cycle();
        beat(other, !writes ? " C 4 0 6 0" : theirs == TRUNK ? " C 4 1 6 0" : " C 4 2 6 0", addresses[block], "", " 0\n");
        held[other][block] = writes ? NOTHING : BRANCH;
    }
    for (int k = 0; k < 8; k++) {
        next_cycle();
        beat(me, writes ? " D 5 0 6" : " D 5 1 6", decimals[source], decimals[sink], " 0 0\n");
    }
    next_cycle();
    beat(me, " E", decimals[sink], "", "\n");
    held[me][block] = writes ? TRUNK : BRANCH;
}

static void operate(void) {
    int me = (int)random_of((unsigned)clients);
    unsigned block = random_of(BLOCKS), source = random_of(15), sink = random_of(64);
    int writes = random_of(5) < 2;
    if (held[me][block] != NOTHING && random_of(10) < 3) release(me, block, source);
    else if (held[me][block] == TRUNK || (held[me][block] == BRANCH && !writes)) return;
    else acquire(me, block, source, sink, writes);
    next_cycle();
}

// Writes the count and waits.
static void pause_at(void) {
    char line[16];
    fprintf(stderr, "%llu\n", beats);
    if (!fgets(line, sizeof line, stdin)) exit(1);
}

int main(int count, char **words) {
    if (count != 4) return 2;
    unsigned long long most = strtoull(words[1], 0, 10), planted = strtoull(words[3], 0, 10);
    clients = atoi(words[2]);
    if (clients < 1 || clients > MOST_CLIENTS) return 2;
    for (int value = 0; value < 64; value++) sprintf(decimals[value], " %d", value);
    for (int block = 0; block < BLOCKS; block++) sprintf(addresses[block], " %x", block * 64);
    int is_planted = planted == 0, is_told = 0;
    set_cycle(0);
    begin();
    while (beats < most) {
        operate();
        if (!is_planted && beats >= planted) {
            is_planted = 1;
            beat(0, " A 4 0 3 15 1004 ff 0\n", "", "", "");
            next_cycle();
            beat(0, " D 1 0 3 15 0 0 0\n", "", "", "");
            next_cycle();
        }
        if (!is_told && beats >= 1000000) {
            is_told = 1;
            flush();
            set_cycle(window * WINDOW);
            pause_at();
        }
    }
    flush();
    pause_at();
    return 0;
}
