/* Words of a row, for what the library never does: an election without a majority, rows that are
   looked at from outside. */
#include "journal.h"

enum {
    LEADS = 0,
    STATE = 1,
    PHASE = 2,
    LAST = 4,
    FIRST = 5,
    WAITING = 14,
    AGREEING,
    PEERS,
    COUNT = PEERS + 5,
    RECORDS
};

static uint32_t members(uint32_t set) { return (uint32_t)__builtin_popcount(set); }

static uint32_t has(uint32_t set, uint32_t c) { return c >= 1 && c <= 5 && set >> (c - 1) & 1; }

/* What an election of c makes of the row of box `me`, whoever is present. */
static void be_elected(uint64_t *row, uint32_t present, uint32_t me, uint32_t c) {
    row[LEADS] = me == c, row[STATE] = members(present) == 1, row[PHASE] = 0;
    row[WAITING] = row[AGREEING] = 0;
}
