/* The index of a box's agreed records, for tests that put the words of its row themselves: for each
   remainder of a left frame by 64 the smallest number and the largest, and beside each record the
   next number of its remainder; 0 for none. */
static void put_index(uint64_t *row, uint64_t j) {
    uint64_t *index = row + 22 + j, first = row[5];
    for (uint64_t i = 0; i < 128; i++) index[i] = 0;
    for (uint64_t i = row[4] + 1 - first; i-- > 0;) {
        uint64_t slot = (row[22 + i] >> 32) % 64;
        index[128 + i] = index[slot], index[slot] = first + i;
        if (!index[64 + slot]) index[64 + slot] = first + i;
    }
}
