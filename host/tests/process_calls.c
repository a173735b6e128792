/* Runs the campaigns of crates/cases/specs/Thresholds.antt, Traps.antt, Arrival.antt, Process.antt and Records.antt through
 * admission and interpretation. There they are computed from the definitions with a toy digest; here the compiled calls run
 * them with SHA-256. Writes a line for each row, and ends with exit status 1 if one fails. All that is lent lies in an allocation of its own
 * length, so that valgrind sees an access past its end. */
#include "sides.h"

#include <stdio.h>
#include <stdlib.h>
#include <string.h>

/* ---- Campaigns as the rows write them: blocks in the order in which they arrive, and what each makes in the slot */

typedef struct {
    uint8_t slot;
    uint16_t number; /* 0: no request */
} request;

/* The blocks referred to, in their order: each by its index among the steps, which is its place too. */
typedef struct {
    size_t count;
    uint8_t steps[GT_MAX_REFERENCES];
} references;

/* The numbers of the messages and of the delivery; 0 is none. */
typedef struct {
    uint16_t send, echo, ready, delivery;
} making;

typedef struct {
    uint8_t site;
    uint16_t sequence;
    request requests[2];
    references references;
    making makes;
} step;

typedef struct {
    uint8_t sites, owners[GT_SLOTS];
    size_t slot;
    const step *steps;
    size_t count;
} campaign;

/* clang-format off */
#define REQUESTS(slot, number) {{slot, number}}
#define NO_REQUEST REQUESTS(0, 0)
#define MARKED REQUESTS(1, 5) /* a request in slot 1, which makes another block and is no matter to slot 0 */
#define TO_NOTHING {0, {0}}
#define TO(...) {sizeof((uint8_t[]){__VA_ARGS__}), {__VA_ARGS__}}

#define NOTHING {0, 0, 0, 0}
#define SENDS(v) {v, 0, 0, 0}
#define ECHOES(v) {0, v, 0, 0}
#define READIES(v) {0, 0, v, 0}
#define DELIVERS(v) {0, 0, 0, v}
#define READIES_AND_DELIVERS(v) {0, 0, v, v}

/* Slot k is owned by site k, and slot k + 4 too. */
#define SHARED_OUT {0, 1, 2, 3, 0, 1, 2, 3}

/* The first four steps of many: the first block, and ECHO 42 of sites 0 to 2. */
#define ECHOED \
    [0] = {0, 0, REQUESTS(0, 42), TO_NOTHING, SENDS(42)}, [1] = {0, 1, NO_REQUEST, TO(0), ECHOES(42)}, \
    [2] = {1, 0, NO_REQUEST, TO(0), ECHOES(42)}, [3] = {2, 0, NO_REQUEST, TO(0), ECHOES(42)}

/* Of seven sites: the first block, and ECHO 42 of sites 1 to 5; and then READY 42 of sites 1 to 3. */
#define ECHOED_BY_FIVE \
    [0] = {0, 0, REQUESTS(0, 42), TO_NOTHING, SENDS(42)}, [1] = {1, 0, NO_REQUEST, TO(0), ECHOES(42)}, \
    [2] = {2, 0, NO_REQUEST, TO(0), ECHOES(42)}, [3] = {3, 0, NO_REQUEST, TO(0), ECHOES(42)}, \
    [4] = {4, 0, NO_REQUEST, TO(0), ECHOES(42)}, [5] = {5, 0, NO_REQUEST, TO(0), ECHOES(42)}
#define READIED_BY_THREE \
    ECHOED_BY_FIVE, [6] = {1, 1, NO_REQUEST, TO(1, 2, 3, 4, 5), READIES(42)}, \
    [7] = {2, 1, NO_REQUEST, TO(1, 2, 3, 4, 5), READIES(42)}, [8] = {3, 1, NO_REQUEST, TO(1, 2, 3, 4, 5), READIES(42)}
/* clang-format on */

/* An array of steps, as pointer and count. */
#define OF(steps) steps, sizeof steps / sizeof steps[0]

/* The slot is 0, and site 0 owns it and all others. */
static campaign of_sites(uint8_t sites, const step *steps, size_t count) { return (campaign){sites, {0}, 0, steps, count}; }

/* ---- Running them */

static side empty_side(const campaign *c, uint16_t content)
{
    side s = {empty_table(c->sites), of_number(content)};

    memcpy(s.table.bytes + OWNERS, c->owners, GT_SLOTS);
    return s;
}

/* The block of a step, where those of the steps before it are these. */
static block block_of_step(const step *s, const block *before)
{
    block b = block_of(s->site, s->sequence);

    for (size_t i = 0; i < s->references.count; i++)
        b = referring_to(b, before[s->references.steps[i]]);
    for (size_t i = 0; i < 2; i++)
        if (s->requests[i].number > 0)
            b = with_request(b, s->requests[i].slot, s->requests[i].number);
    return b;
}

/* Each block is admitted at its place and interpreted. At the end each place's record shows what its block makes. */
static bool taken(const campaign *c, side *s)
{
    block blocks[GT_MAX_PLACES];
    bool ok = c->count > 0 && c->count <= GT_MAX_PLACES;

    for (size_t i = 0; ok && i < c->count; i++) {
        blocks[i] = block_of_step(&c->steps[i], blocks);
        ok = hold(s, blocks[i], i);
    }
    for (size_t i = 0; ok && i < c->count; i++) {
        making m = c->steps[i].makes;
        ok = made(&s->records, i, c->slot, m.send, m.echo, m.ready, m.delivery);
    }
    return ok;
}

/* The campaign goes as its steps say on a record buffer of zeros, and on one of other numbers with the same result; of
 * these the ones behind its places stay. Gives the records that it leaves on zeros. */
static bool recorded(campaign c, buffer *records)
{
    side on_zeros = empty_side(&c, 0), on_others = empty_side(&c, 0xa5a5), wanted = on_others;

    if (!taken(&c, &on_zeros) || !taken(&c, &on_others))
        return false;
    wanted.table = on_zeros.table;
    memcpy(wanted.records.numbers, on_zeros.records.numbers, 2 * 320 * c.count);
    *records = on_zeros.records;
    return same_side(&on_others, &wanted);
}

static bool goes(campaign c)
{
    buffer records;

    return recorded(c, &records);
}

/* The campaign leaves these numbers as a place's record of a slot. */
static bool leaves(campaign c, size_t place, size_t slot, const uint16_t numbers[40])
{
    buffer records;

    return recorded(c, &records) && memcmp(records.numbers + 320 * place + 40 * slot, numbers, 2 * 40) == 0;
}

/* ---- ThresholdCases, by the names that the rows have there */

/* clang-format off */

static const step echoes_of_four[] = {
    ECHOED,
    [4] = {3, 0, NO_REQUEST, TO(1, 2), NOTHING},
    [5] = {3, 1, NO_REQUEST, TO(4, 3), READIES(42)},
};

static const step readies_of_four[] = {
    ECHOED,
    [4] = {0, 2, NO_REQUEST, TO(1, 2, 3), READIES(42)},
    [5] = {1, 1, NO_REQUEST, TO(1, 2, 3), READIES(42)},
    [6] = {3, 0, NO_REQUEST, TO(4), NOTHING},
    [7] = {3, 1, NO_REQUEST, TO(6, 5), READIES(42)},
    [8] = {3, 2, NO_REQUEST, TO(7), DELIVERS(42)},
};

static const step readies_of_four_at_once[] = {
    ECHOED,
    [4] = {0, 2, NO_REQUEST, TO(1, 2, 3), READIES(42)},
    [5] = {1, 1, NO_REQUEST, TO(1, 2, 3), READIES(42)},
    [6] = {2, 1, NO_REQUEST, TO(1, 2, 3), READIES(42)},
    [7] = {3, 0, NO_REQUEST, TO(4, 5, 6), READIES_AND_DELIVERS(42)},
    [8] = {3, 1, NO_REQUEST, TO(7), NOTHING},
};

static const step echoes_of_seven[] = {
    ECHOED_BY_FIVE,
    [6] = {6, 0, NO_REQUEST, TO(1, 2, 3, 4), NOTHING},
    [7] = {6, 1, NO_REQUEST, TO(6, 5), READIES(42)},
};

static const step readies_of_seven[] = {
    READIED_BY_THREE,
    [9] = {4, 1, NO_REQUEST, TO(1, 2, 3, 4, 5), READIES(42)},
    [10] = {6, 0, NO_REQUEST, TO(6, 7), NOTHING},
    [11] = {6, 1, NO_REQUEST, TO(10, 8), READIES(42)},
    [12] = {6, 2, NO_REQUEST, TO(11), NOTHING},
    [13] = {6, 3, NO_REQUEST, TO(12, 9), DELIVERS(42)},
};

static const step readies_of_seven_at_once[] = {
    READIED_BY_THREE,
    [9] = {4, 1, NO_REQUEST, TO(1, 2, 3, 4, 5), READIES(42)},
    [10] = {5, 1, NO_REQUEST, TO(1, 2, 3, 4, 5), READIES(42)},
    [11] = {6, 0, NO_REQUEST, TO(6, 7, 8, 9, 10), READIES_AND_DELIVERS(42)},
    [12] = {6, 1, NO_REQUEST, TO(11), NOTHING},
};

/* clang-format on */

static void check_thresholds(void)
{
    check("n 4, ECHO of two sites: nothing; of a third: READY", goes(of_sites(4, OF(echoes_of_four))));
    check("n 4, READY of one site: nothing; of two: READY; the own one is the third: delivery",
          goes(of_sites(4, OF(readies_of_four))));
    check("n 4, READY of three sites at once: READY and delivery; a fourth: nothing more",
          goes(of_sites(4, OF(readies_of_four_at_once))));
    check("n 7, ECHO of four sites: nothing; of a fifth: READY", goes(of_sites(7, OF(echoes_of_seven))));
    check("n 7, READY of two sites: nothing; of three: READY; of four: no delivery; of five: delivery",
          goes(of_sites(7, OF(readies_of_seven))));
    check("n 7, READY of five sites at once: READY and delivery; a sixth: nothing more",
          goes(of_sites(7, OF(readies_of_seven_at_once))));
}

/* ---- TrapCases and SlotCases */

/* clang-format off */

static const step distinct_echoes[] = {
    [0] = {0, 0, REQUESTS(0, 42), TO_NOTHING, SENDS(42)},
    [1] = {0, 1, NO_REQUEST, TO(0), ECHOES(42)},
    [2] = {1, 0, NO_REQUEST, TO(0), ECHOES(42)},
    [3] = {1, 0, MARKED, TO(0), ECHOES(42)},
    [4] = {2, 0, NO_REQUEST, TO(0), ECHOES(42)},
    [5] = {3, 0, NO_REQUEST, TO(2, 3, 4), NOTHING},
    [6] = {3, 1, NO_REQUEST, TO(5, 1), READIES(42)},
};

static const step distinct_readies[] = {
    ECHOED,
    [4] = {1, 1, NO_REQUEST, TO(1, 2, 3), READIES(42)},
    [5] = {1, 1, MARKED, TO(1, 2, 3), READIES(42)},
    [6] = {2, 1, NO_REQUEST, TO(1, 2, 3), READIES(42)},
    [7] = {3, 0, NO_REQUEST, TO(4), NOTHING},
    [8] = {3, 1, NO_REQUEST, TO(7, 5), NOTHING},
    [9] = {3, 2, NO_REQUEST, TO(8, 6), READIES(42)},
};

static const step direct_only[] = {
    [0] = {0, 0, REQUESTS(0, 42), TO_NOTHING, SENDS(42)},
    [1] = {1, 0, NO_REQUEST, TO(0), ECHOES(42)},
    [2] = {2, 0, NO_REQUEST, TO(1), NOTHING},
};

static const step parent_only[] = {
    [0] = {0, 0, REQUESTS(0, 42), TO_NOTHING, SENDS(42)},
    [1] = {1, 0, MARKED, TO(0), ECHOES(42)},
    [2] = {1, 0, NO_REQUEST, TO_NOTHING, NOTHING},
    [3] = {1, 1, NO_REQUEST, TO(2, 0), ECHOES(42)},
    [4] = {1, 1, NO_REQUEST, TO(3, 2, 0), ECHOES(42)},
};

static const step heard_in_branch[] = {
    ECHOED,
    [4] = {3, 0, NO_REQUEST, TO(1, 2), NOTHING},
    [5] = {3, 0, NO_REQUEST, TO(3), NOTHING},
};

static const step lower_send_first[] = {
    [0] = {0, 0, REQUESTS(0, 43), TO_NOTHING, SENDS(43)},
    [1] = {0, 0, REQUESTS(0, 42), TO_NOTHING, SENDS(42)},
    [2] = {1, 0, NO_REQUEST, TO(0, 1), ECHOES(42)},
    [3] = {2, 0, NO_REQUEST, TO(1, 0), ECHOES(42)},
};

static const step lower_echo_first[] = {
    [0] = {0, 0, REQUESTS(0, 43), TO_NOTHING, SENDS(43)},
    [1] = {1, 0, MARKED, TO(0), ECHOES(43)},
    [2] = {0, 1, MARKED, TO(0), ECHOES(43)},
    [3] = {2, 0, MARKED, TO(0), ECHOES(43)},
    [4] = {0, 0, REQUESTS(0, 42), TO_NOTHING, SENDS(42)},
    [5] = {1, 0, NO_REQUEST, TO(4), ECHOES(42)},
    [6] = {3, 0, NO_REQUEST, TO(1, 5, 2, 3), NOTHING},
};

static const step lower_sender_first[] = {
    ECHOED,
    [4] = {2, 1, NO_REQUEST, TO(1, 2, 3), READIES(42)},
    [5] = {3, 0, NO_REQUEST, TO(1, 2, 3), READIES(42)},
    [6] = {0, 0, REQUESTS(0, 43), TO_NOTHING, SENDS(43)},
    [7] = {0, 1, MARKED, TO(6), ECHOES(43)},
    [8] = {1, 0, MARKED, TO(6), ECHOES(43)},
    [9] = {2, 0, MARKED, TO(6), ECHOES(43)},
    [10] = {0, 2, MARKED, TO(7, 8, 9), READIES(43)},
    [11] = {1, 1, MARKED, TO(7, 8, 9), READIES(43)},
    [12] = {3, 0, NO_REQUEST, TO(4, 5, 10, 11), READIES(43)},
};

static const step echo_before_ready[] = {
    [0] = {0, 0, REQUESTS(0, 43), TO_NOTHING, SENDS(43)},
    [1] = {0, 1, MARKED, TO(0), ECHOES(43)},
    [2] = {1, 0, MARKED, TO(0), ECHOES(43)},
    [3] = {2, 0, MARKED, TO(0), ECHOES(43)},
    [4] = {0, 2, MARKED, TO(1, 2, 3), READIES(43)},
    [5] = {1, 1, MARKED, TO(1, 2, 3), READIES(43)},
    [6] = {0, 0, REQUESTS(0, 42), TO_NOTHING, SENDS(42)},
    [7] = {0, 1, NO_REQUEST, TO(6), ECHOES(42)},
    [8] = {1, 0, NO_REQUEST, TO(6), ECHOES(42)},
    [9] = {2, 0, NO_REQUEST, TO(6), ECHOES(42)},
    [10] = {3, 0, NO_REQUEST, TO(4, 5, 7, 8, 9), READIES(42)},
};

static const step two_slots[] = {
    [0] = {1, 0, {{0, 42}, {1, 43}}, TO_NOTHING, NOTHING},
};

static const step two_slots_owned[] = {
    [0] = {1, 0, {{0, 42}, {1, 43}}, TO_NOTHING, SENDS(43)},
};

static const step echo_once[] = {
    [0] = {0, 0, REQUESTS(0, 42), TO_NOTHING, SENDS(42)},
    [1] = {0, 0, REQUESTS(0, 43), TO_NOTHING, SENDS(43)},
    [2] = {1, 0, NO_REQUEST, TO(0), ECHOES(42)},
    [3] = {1, 1, NO_REQUEST, TO(2, 1), NOTHING},
};

/* clang-format on */

static void check_traps(void)
{
    check("two ECHOs of one site count once", goes(of_sites(4, OF(distinct_echoes))));
    check("two READYs of one site count once, heard in two blocks", goes(of_sites(4, OF(distinct_readies))));
    check("a SEND two references away is not heard", goes(of_sites(4, OF(direct_only))));
    check("a site's two branches: each has its state from its parent", goes(of_sites(4, OF(parent_only))));
    check("a site's two branches do not share what they heard", goes(of_sites(4, OF(heard_in_branch))));
    check("of two SENDs the lower number is taken, in whatever order they arrive", goes(of_sites(4, OF(lower_send_first))));
    check("of a site's two ECHOs the lower number is taken", goes(of_sites(4, OF(lower_echo_first))));
    check("READYs are taken by sender, the lower first", goes(of_sites(4, OF(lower_sender_first))));
    check("ECHOs are taken before READYs", goes(of_sites(4, OF(echo_before_ready))));
    check("requests in two slots: nothing in that of another owner", goes((campaign){4, SHARED_OUT, 0, OF(two_slots)}));
    check("requests in two slots: SEND in the own one", goes((campaign){4, SHARED_OUT, 1, OF(two_slots_owned)}));
    check("a second SEND brings no second ECHO", goes(of_sites(4, OF(echo_once))));
}

/* ---- ArrivalCases, but the thirteen blocks of `all_full`, which crates/vectors runs */

/* clang-format off */

static const step one_forked[] = {
    [0] = {0, 0, REQUESTS(0, 42), TO_NOTHING, SENDS(42)},
    [1] = {3, 0, REQUESTS(1, 1), TO_NOTHING, NOTHING},
    [2] = {3, 0, REQUESTS(1, 2), TO_NOTHING, NOTHING},
    [3] = {0, 1, NO_REQUEST, TO(0), ECHOES(42)},
    [4] = {1, 0, NO_REQUEST, TO(0), ECHOES(42)},
    [5] = {2, 0, NO_REQUEST, TO(0, 1), ECHOES(42)},
    [6] = {0, 2, NO_REQUEST, TO(3, 4, 5), READIES(42)},
    [7] = {1, 1, NO_REQUEST, TO(3, 4, 5), READIES(42)},
    [8] = {2, 1, NO_REQUEST, TO(3, 4, 5), READIES(42)},
    [9] = {1, 2, NO_REQUEST, TO(6, 7, 8), DELIVERS(42)},
};

static const step owner_outside[] = {
    [0] = {0, 0, NO_REQUEST, TO_NOTHING, NOTHING},
    [1] = {0, 1, REQUESTS(0, 42), TO(0), SENDS(42)},
    [2] = {1, 0, NO_REQUEST, TO(0, 1), ECHOES(42)},
    [3] = {2, 0, NO_REQUEST, TO(0, 1), ECHOES(42)},
    [4] = {3, 0, NO_REQUEST, TO(0, 1), ECHOES(42)},
    [5] = {1, 1, NO_REQUEST, TO(2, 3, 4), READIES(42)},
    [6] = {2, 1, NO_REQUEST, TO(2, 3, 4), READIES(42)},
    [7] = {3, 1, NO_REQUEST, TO(2, 3, 4), READIES(42)},
    [8] = {0, 2, REQUESTS(0, 43), TO(1, 2, 3, 4, 5, 6, 7), {.echo = 42, .ready = 42, .delivery = 42}},
};

static const step one_site_fewer[] = {
    [0] = {0, 0, REQUESTS(0, 42), TO_NOTHING, SENDS(42)},
    [1] = {0, 1, NO_REQUEST, TO(0), ECHOES(42)},
    [2] = {1, 0, NO_REQUEST, TO(0), ECHOES(42)},
    [3] = {0, 2, NO_REQUEST, TO(1, 2), NOTHING},
    [4] = {1, 1, NO_REQUEST, TO(1, 2), NOTHING},
    [5] = {1, 2, NO_REQUEST, TO(3, 4), NOTHING},
};

static const step last_not_full[] = {
    ECHOED,
    [4] = {0, 2, NO_REQUEST, TO(1, 2, 3), READIES(42)},
    [5] = {1, 1, NO_REQUEST, TO(1, 2, 3), READIES(42)},
    [6] = {2, 1, NO_REQUEST, TO(1, 2, 3), READIES(42)},
    [7] = {0, 3, NO_REQUEST, TO(4, 5, 6), DELIVERS(42)},
    [8] = {3, 0, NO_REQUEST, TO(7), NOTHING},
};

/* clang-format on */

static void check_arrivals(void)
{
    check("site 3 forked: delivered by the three others", goes(of_sites(4, OF(one_forked))));
    check("the owner outside the set, and its later request: its first is delivered", goes(of_sites(4, OF(owner_outside))));
    check("one site fewer than n - f: nothing", goes(of_sites(4, OF(one_site_fewer))));
    check("a last block of a site that is not full: nothing", goes(of_sites(4, OF(last_not_full))));
}

/* ---- ProcessCases */

/* clang-format off */
static const step later_request[] = {
    [0] = {0, 0, NO_REQUEST, TO_NOTHING, NOTHING},
    [1] = {0, 1, REQUESTS(0, 42), TO(0), SENDS(42)},
};

static const step request_after_echo[] = {
    [0] = {0, 0, REQUESTS(0, 43), TO_NOTHING, SENDS(43)},
    [1] = {0, 0, NO_REQUEST, TO(0), ECHOES(43)},
    [2] = {0, 1, NO_REQUEST, TO(1), NOTHING},
    [3] = {0, 2, REQUESTS(0, 42), TO(2), SENDS(42)},
};

static const step echoes_and_ready[] = {
    ECHOED,
    [4] = {2, 1, NO_REQUEST, TO(1, 2, 3), READIES(42)},
    [5] = {3, 0, NO_REQUEST, TO(1, 2, 4), NOTHING},
};

static const step ready_then_echoes[] = {
    ECHOED,
    [4] = {2, 1, NO_REQUEST, TO(1, 2, 3), READIES(42)},
    [5] = {3, 0, NO_REQUEST, TO(4), NOTHING},
    [6] = {3, 1, NO_REQUEST, TO(5, 1, 2), NOTHING},
    [7] = {3, 2, NO_REQUEST, TO(6, 3), READIES(42)},
};

static const step readies_and_echo[] = {
    ECHOED,
    [4] = {1, 1, NO_REQUEST, TO(1, 2, 3), READIES(42)},
    [5] = {2, 1, NO_REQUEST, TO(1, 2, 3), READIES(42)},
    [6] = {3, 0, NO_REQUEST, TO(1, 4, 5), READIES(42)},
};

static const step readies_then_echoes[] = {
    READIED_BY_THREE,
    [9] = {6, 0, NO_REQUEST, TO(4, 5, 6, 7, 8), READIES(42)},
    [10] = {6, 1, NO_REQUEST, TO(9, 1, 2), NOTHING},
};

static const step other_ready[] = {
    ECHOED,
    [4] = {0, 2, NO_REQUEST, TO(1, 2, 3), READIES(42)},
    [5] = {1, 1, NO_REQUEST, TO(1, 2, 3), READIES(42)},
    [6] = {0, 0, REQUESTS(0, 43), TO_NOTHING, SENDS(43)},
    [7] = {0, 1, MARKED, TO(6), ECHOES(43)},
    [8] = {1, 0, MARKED, TO(6), ECHOES(43)},
    [9] = {2, 0, MARKED, TO(6), ECHOES(43)},
    [10] = {1, 1, MARKED, TO(7, 8, 9), READIES(43)},
    [11] = {2, 1, MARKED, TO(7, 8, 9), READIES(43)},
    [12] = {3, 0, NO_REQUEST, TO(5), NOTHING},
    [13] = {3, 1, NO_REQUEST, TO(12, 10), NOTHING},
    [14] = {3, 2, NO_REQUEST, TO(13, 11), NOTHING},
    [15] = {3, 3, NO_REQUEST, TO(14, 4), READIES(42)},
};

static const step ready_and_delivery[] = {
    [0] = {0, 0, REQUESTS(0, 7), TO_NOTHING, SENDS(7)},
    [1] = {0, 1, NO_REQUEST, TO(0), ECHOES(7)},
    [2] = {0, 2, NO_REQUEST, TO(1), READIES(7)},
    [3] = {0, 0, MARKED, TO(2), READIES_AND_DELIVERS(7)},
};

static const step own_other[] = {
    [0] = {0, 0, REQUESTS(0, 7), TO_NOTHING, SENDS(7)},
    [1] = {0, 1, NO_REQUEST, TO(0), ECHOES(7)},
    [2] = {0, 0, MARKED, TO_NOTHING, NOTHING},
    [3] = {0, 1, NO_REQUEST, TO(2, 1), READIES(7)},
    [4] = {0, 0, MARKED, TO(1), READIES(7)},
};

static const step ready_for_another[] = {
    [0] = {0, 0, REQUESTS(0, 42), TO_NOTHING, SENDS(42)},
    [1] = {0, 0, REQUESTS(0, 43), TO_NOTHING, SENDS(43)},
    [2] = {0, 1, NO_REQUEST, TO(0), ECHOES(42)},
    [3] = {1, 0, NO_REQUEST, TO(0), ECHOES(42)},
    [4] = {2, 0, NO_REQUEST, TO(0), ECHOES(42)},
    [5] = {3, 0, NO_REQUEST, TO(1), ECHOES(43)},
    [6] = {3, 1, NO_REQUEST, TO(5, 2, 3, 4), READIES(42)},
};

static const step delivered_for_another[] = {
    [0] = {0, 0, REQUESTS(0, 42), TO_NOTHING, SENDS(42)},
    [1] = {0, 0, REQUESTS(0, 43), TO_NOTHING, SENDS(43)},
    [2] = {0, 1, NO_REQUEST, TO(0), ECHOES(42)},
    [3] = {1, 0, NO_REQUEST, TO(0), ECHOES(42)},
    [4] = {2, 0, NO_REQUEST, TO(0), ECHOES(42)},
    [5] = {0, 2, NO_REQUEST, TO(2, 3, 4), READIES(42)},
    [6] = {1, 1, NO_REQUEST, TO(2, 3, 4), READIES(42)},
    [7] = {3, 0, NO_REQUEST, TO(1), ECHOES(43)},
    [8] = {3, 1, NO_REQUEST, TO(7, 5, 6), READIES(42)},
    [9] = {3, 2, NO_REQUEST, TO(8), DELIVERS(42)},
};

static const step other_delivered[] = {
    [0] = {0, 0, REQUESTS(0, 43), TO_NOTHING, SENDS(43)},
    [1] = {0, 1, MARKED, TO(0), ECHOES(43)},
    [2] = {1, 0, MARKED, TO(0), ECHOES(43)},
    [3] = {2, 0, MARKED, TO(0), ECHOES(43)},
    [4] = {3, 0, NO_REQUEST, TO(1, 2, 3), READIES(43)},
    [5] = {0, 0, REQUESTS(0, 42), TO_NOTHING, SENDS(42)},
    [6] = {0, 1, NO_REQUEST, TO(5), ECHOES(42)},
    [7] = {1, 0, NO_REQUEST, TO(5), ECHOES(42)},
    [8] = {2, 0, NO_REQUEST, TO(5), ECHOES(42)},
    [9] = {0, 2, NO_REQUEST, TO(6, 7, 8), READIES(42)},
    [10] = {1, 1, NO_REQUEST, TO(6, 7, 8), READIES(42)},
    [11] = {2, 1, NO_REQUEST, TO(6, 7, 8), READIES(42)},
    [12] = {3, 1, NO_REQUEST, TO(4, 9, 10, 11), DELIVERS(42)},
};

static const step echo_after_ready[] = {
    ECHOED,
    [4] = {0, 2, NO_REQUEST, TO(1, 2, 3), READIES(42)},
    [5] = {1, 1, NO_REQUEST, TO(1, 2, 3), READIES(42)},
    [6] = {3, 0, NO_REQUEST, TO(4, 5), READIES(42)},
    [7] = {3, 1, NO_REQUEST, TO(6, 0), {.echo = 42, .delivery = 42}},
};

static const step echo_after_delivery[] = {
    ECHOED,
    [4] = {0, 2, NO_REQUEST, TO(1, 2, 3), READIES(42)},
    [5] = {1, 1, NO_REQUEST, TO(1, 2, 3), READIES(42)},
    [6] = {2, 1, NO_REQUEST, TO(1, 2, 3), READIES(42)},
    [7] = {3, 0, NO_REQUEST, TO(4, 5, 6), READIES_AND_DELIVERS(42)},
    [8] = {3, 1, NO_REQUEST, TO(7, 0), ECHOES(42)},
};

static const step echo_after_echoes[] = {
    ECHOED,
    [4] = {3, 0, NO_REQUEST, TO(1, 2, 3), READIES(42)},
    [5] = {3, 1, NO_REQUEST, TO(4, 0), ECHOES(42)},
    [6] = {3, 2, NO_REQUEST, TO(5), NOTHING},
};

static const step parent_of_site[] = {
    [0] = {0, 0, NO_REQUEST, TO_NOTHING, NOTHING},
    [1] = {0, 1, REQUESTS(0, 42), TO(0), SENDS(42)},
    [2] = {2, 0, NO_REQUEST, TO(1), ECHOES(42)},
    [3] = {1, 0, NO_REQUEST, TO_NOTHING, NOTHING},
    [4] = {1, 1, NO_REQUEST, TO(2, 3, 1), ECHOES(42)},
};

static const step without_parent[] = {
    [0] = {0, 0, REQUESTS(0, 42), TO_NOTHING, SENDS(42)},
    [1] = {0, 0, REQUESTS(0, 43), TO(0), {.send = 43, .echo = 42}},
    [2] = {1, 0, NO_REQUEST, TO(1), ECHOES(43)},
};

static const step both_heard[] = {
    ECHOED,
    [4] = {3, 0, NO_REQUEST, TO(0, 1, 2, 3), {.echo = 42, .ready = 42}},
    [5] = {0, 2, NO_REQUEST, TO(1, 2, 3), READIES(42)},
    [6] = {1, 1, NO_REQUEST, TO(2, 3, 4), READIES(42)},
    [7] = {2, 1, NO_REQUEST, TO(3, 5, 4), READIES(42)},
};

static const step sent_before[] = {
    ECHOED,
    [4] = {0, 2, NO_REQUEST, TO(1, 2, 3), READIES(42)},
    [5] = {1, 1, NO_REQUEST, TO(1, 2, 3), READIES(42)},
    [6] = {0, 3, NO_REQUEST, TO(4), NOTHING},
    [7] = {3, 0, NO_REQUEST, TO(6, 5), NOTHING},
};

static const step owner_of_slot[] = {
    [0] = {1, 0, REQUESTS(1, 43), TO_NOTHING, SENDS(43)},
    [1] = {2, 0, NO_REQUEST, TO(0), ECHOES(43)},
};
/* clang-format on */

static void check_process(void)
{
    check("a request in the owner's second block: SEND", goes(of_sites(4, OF(later_request))));
    check("a request after the owner has sent ECHO and heard it: SEND", goes(of_sites(4, OF(request_after_echo))));
    check("n 4, ECHO of two sites and READY of a third: no READY, no delivery", goes(of_sites(4, OF(echoes_and_ready))));
    check("n 4, READY of a site, then ECHO of two others: no READY; then ECHO of that site: READY",
          goes(of_sites(4, OF(ready_then_echoes))));
    check("n 4, READY of two sites and ECHO of a third: READY, no delivery", goes(of_sites(4, OF(readies_and_echo))));
    check("n 7, READY of three sites and ECHO of two others: READY; then ECHO of two more: no delivery",
          goes(of_sites(7, OF(readies_then_echoes))));
    check("a second READY of a site, of another number: not noted, and the first stays", goes(of_sites(4, OF(other_ready))));
    check("n 1, one READY heard: READY and delivery in one block", goes(of_sites(1, OF(ready_and_delivery))));
    check("an own block other than the parent: heard, with a parent and without", goes(of_sites(1, OF(own_other))));
    check("ECHOs of another number than the site's own ECHO: READY of theirs", goes(of_sites(4, OF(ready_for_another))));
    check("READYs of another number than the site's own ECHO: READY of theirs, then delivery",
          goes(of_sites(4, OF(delivered_for_another))));
    check("READYs of another number than the site's own READY: delivery of theirs", goes(of_sites(4, OF(other_delivered))));
    check("SEND heard after the site's own READY: ECHO, beside the delivery", goes(of_sites(4, OF(echo_after_ready))));
    check("SEND heard after the delivery: ECHO", goes(of_sites(4, OF(echo_after_delivery))));
    check("SEND heard after three ECHOs: ECHO; then a fourth ECHO: no second READY", goes(of_sites(4, OF(echo_after_echoes))));
    check("a block of another site, one number less and listed first: no parent", goes(of_sites(4, OF(parent_of_site))));
    check("a block of sequence number 0 on one of its own site: no parent, so SEND and ECHO, and both are heard",
          goes(of_sites(4, OF(without_parent))));
    check("ECHO and READY of one block: both are heard", goes(of_sites(4, OF(both_heard))));
    check("READY of a block before the one referred to: not heard", goes(of_sites(4, OF(sent_before))));
    check("slot 1, SEND of its owner, site 1: ECHO", goes((campaign){4, SHARED_OUT, 1, OF(owner_of_slot)}));
}

/* ---- RecordCases. No place of a number is taken from the headers: those here are the rows' own. */

/* clang-format off */
static const step chain_of_four[] = {
    [0] = {0, 0, REQUESTS(0, 7), TO_NOTHING, SENDS(7)},
    [1] = {0, 1, NO_REQUEST, TO(0), ECHOES(7)},
    [2] = {0, 2, NO_REQUEST, TO(1), READIES(7)},
    [3] = {0, 3, NO_REQUEST, TO(2), DELIVERS(7)},
};

static const step mixed[] = {
    ECHOED,
    [4] = {2, 1, NO_REQUEST, TO(1, 2, 3), READIES(42)},
    [5] = {0, 0, REQUESTS(0, 43), TO_NOTHING, SENDS(43)},
    [6] = {0, 1, MARKED, TO(5), ECHOES(43)},
    [7] = {1, 0, MARKED, TO(5), ECHOES(43)},
    [8] = {2, 0, MARKED, TO(5), ECHOES(43)},
    [9] = {1, 1, MARKED, TO(6, 7, 8), READIES(43)},
    [10] = {3, 0, NO_REQUEST, TO(5), ECHOES(43)},
    [11] = {3, 1, NO_REQUEST, TO(10, 4, 9, 1, 2, 3), READIES(42)},
};

static const step in_slot_five[] = {
    [0] = {0, 0, REQUESTS(0, 42), TO_NOTHING, NOTHING},
    [1] = {1, 0, REQUESTS(5, 45), TO_NOTHING, SENDS(45)},
};
/* clang-format on */

static void check_records(void)
{
    campaign chained = of_sites(1, OF(chain_of_four));
    campaign shared_out = {4, SHARED_OUT, 5, OF(in_slot_five)};

    check("a record is 40 numbers", GT_RECORD_NUMBERS == 40);
    check("a place has 320 numbers", GT_PART_NUMBERS == 320);
    check("a record buffer is 20480 numbers", GT_RECORDS_NUMBERS == 20480);
    check("the 40 numbers where SEND is made", leaves(chained, 0, 0, (uint16_t[40]){7, 0, 0, 0, [36] = 7, 0, 0, 0}));
    check("the 40 numbers where ECHO is made", leaves(chained, 1, 0, (uint16_t[40]){7, 7, 0, 0, [36] = 0, 7, 0, 0}));
    check("the 40 numbers where READY is made, the own ECHO heard",
          leaves(chained, 2, 0, (uint16_t[40]){7, 7, 7, 0, [4] = 7, [36] = 0, 0, 7, 0}));
    check("the 40 numbers where the delivery is made, the own ECHO and READY heard",
          leaves(chained, 3, 0, (uint16_t[40]){7, 7, 7, 7, [4] = 7, [20] = 7, [36] = 0, 0, 0, 7}));
    check("the 40 numbers where ECHO and READY of two numbers are heard, from each site",
          leaves(of_sites(4, OF(mixed)), 11, 0,
                 (uint16_t[40]){0, 43, 42, 0, [4] = 42, 42, 42, 43, [20] = 0, 43, 42, 0, [36] = 0, 0, 42, 0}));
    check("the 40 numbers of slot 5 at place 1", leaves(shared_out, 1, 5, (uint16_t[40]){45, 0, 0, 0, [36] = 45, 0, 0, 0}));
    check("the 40 numbers of slot 1 there, of the same owner: zeros", leaves(shared_out, 1, 1, (uint16_t[40]){0}));
}

int main(void)
{
    check_thresholds();
    check_traps();
    check_arrivals();
    check_process();
    check_records();
    return all_ok ? EXIT_SUCCESS : EXIT_FAILURE;
}
