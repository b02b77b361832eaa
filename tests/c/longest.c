/* A site whose books and links are full, at sizes small and larger: its image has JOURNAL_IMAGE_MOST
 * bytes, which is room enough, and a byte less is too little. Ends with 1 where anything differs. */
#include "journal.h"
#include <stdio.h>
#include <stdlib.h>
#include <string.h>

#include "index.h"

/* Proved: longest-of-all and longest-of-traces, crates/image/proofs/LongestLaws.antt. */
_Static_assert(JOURNAL_IMAGE_MOST(5, 4096, 16) == 10657940, "the longest image of all");
_Static_assert(JOURNAL_IMAGE_MOST(5, 32, 8) == 46740, "the longest image of a trace's site");

static int checks, failures;
static uint32_t n, j, l;

static void check(const char *what, size_t got, size_t want) {
    checks++;
    if (got != want) {
        failures++;
        printf("n %u, J %u, L %u: %s is %lu and not %lu\n", n, j, l, what, got, want);
    }
}

static void book(uint64_t *records) {
    for (uint64_t k = 1; k <= j; k++) records[k - 1] = k << 32 | k;
}

static void fill_box(uint64_t *row) {
    row[4] = row[21] = j; /* last, and how many are held */
    book(row + 22);
    put_index(row, j);
}

static void fill_link(uint64_t *link) {
    link[1] = l;
    for (uint32_t i = 0; i < l; i++) {
        uint64_t *place = link + 2 + (size_t)i * JOURNAL_PLACE_WORDS(j);
        uint64_t commit[] = {5, 100, j, 1, 0, j};
        memcpy(place, commit, sizeof commit);
        book(place + 6);
    }
}

static void full(void) {
    size_t s = JOURNAL_SITE_WORDS(n, j), k = JOURNAL_LINKS_WORDS(n, j, l);
    size_t most = JOURNAL_IMAGE_MOST(n, j, l), length = 0;
    uint64_t *site = malloc(s * sizeof *site), *links = malloc((k + 1) * sizeof *links);
    uint8_t *image = malloc(most);
    check("fresh", journal_fresh(site, s, links, k, n, j, l), JOURNAL_DONE);
    for (uint32_t c = 0; c < n; c++) fill_box(site + 5 + (size_t)c * JOURNAL_ROW_WORDS(j));
    for (uint32_t i = 0; i < n * (n - 1); i++) fill_link(links + k / (n * (n - 1)) * i);
    check("image_length", journal_image_length(site, s, links, k, &length), JOURNAL_DONE);
    check("the length", length, most);
    check("write into less", journal_write(site, s, links, k, image, most - 1, &length),
          JOURNAL_BUFFER);
    check("write", journal_write(site, s, links, k, image, most, &length), JOURNAL_DONE);
    check("what was written", length, most);
    free(site), free(links), free(image);
}

int main(void) {
    static const uint32_t loads[] = {1, 7, 32}, mails[] = {1, 8, 16};
    for (n = 1; n <= 5; n++)
        for (int a = 0; a < 3; a++)
            for (int b = 0; b < 3; b++) {
                j = loads[a], l = mails[b];
                full();
            }
    printf("longest images: %d checks, %d failures\n", checks, failures);
    return failures != 0;
}
