/* That the two implementations answer alike. A difference ends the program. */
#ifndef SAME_H
#define SAME_H

#include "campaigns.h"

/* Runs a campaign on each, with refused calls and takings back among it, and retires what can be; then once more the campaign,
 * which leaves their tables full and interpreted. */
void expect_same(const campaign *c);

/* So many calls on seeded random campaigns of every number of sites: partial references, forks, places that wait,
 * retirings, takings back, and damage. Leaves the tables in no particular state. */
void expect_same_at_random(size_t calls);

/* All numbers of the record buffers, as the calls before have left them. */
void expect_same_records(void);

#endif
