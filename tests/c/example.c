/* Two boxes agree on load 1, the frames 71 and 72. */
#include "journal.h"
#include <stdio.h>

int main(void) {
    uint64_t site[JOURNAL_SITE_WORDS(2, 16)], links[JOURNAL_LINKS_WORDS(2, 16, 8)];
    size_t s = JOURNAL_SITE_WORDS(2, 16), l = JOURNAL_LINKS_WORDS(2, 16, 8);
    if (journal_fresh(site, s, links, l, 2, 16, 8) != JOURNAL_DONE) return 1;
    journal_elect(site, s, links, l, 1);
    journal_recover(site, s, links, l, 1);
    journal_collect(site, s, links, l, 1);
    journal_deliver(site, s, links, l, 1, 2); /* Collect */
    journal_deliver(site, s, links, l, 2, 1); /* Last */
    journal_ready(site, s, links, l, 1);
    journal_deliver(site, s, links, l, 1, 2); /* Lease */
    journal_deliver(site, s, links, l, 2, 1); /* LeaseAck */
    journal_heard(site, s, links, l, 1);
    journal_offer(site, s, links, l, 1, 71, 72);
    journal_propose(site, s, links, l, 1);
    journal_deliver(site, s, links, l, 1, 2); /* Begin */
    journal_deliver(site, s, links, l, 2, 1); /* Accept */
    journal_agree(site, s, links, l, 1);
    journal_deliver(site, s, links, l, 1, 2); /* Commit */
    if (journal_holds(site, s, links, l, 2, 1, 71, 72) == JOURNAL_DONE) puts("load 1: 71 72");
    return 0;
}
