/* Calls interpretation and replay at the edges of what they take. Writes a line for each check, and ends with exit status
 * 1 if one fails. All that is lent lies in an allocation of its own length, so that valgrind sees an access past its end. */
#include "lists.h"

#include <stdio.h>
#include <stdlib.h>
#include <string.h>

/* The entry of a record that has what is delivered. */
enum { DELIVERED = 3 };

/* ---- Refusals, with nothing changed */

static bool refused_of_length(table t, size_t table_length, size_t place, size_t count, uint8_t refusal, size_t value)
{
    buffer b = of_number(7), numbers_before = b;
    table before = t;

    return is(interpret_of_length(&t, table_length, place, &b, count), refusal, value) && same(&t, &before)
        && same_numbers(&b, &numbers_before);
}

static bool refused(table t, size_t place, uint8_t refusal, size_t value)
{
    return refused_of_length(t, GT_TABLE_BYTES, place, GT_RECORDS_NUMBERS, refusal, value);
}

/* ---- Document 01's chain of four: n is 1, and the first block requests 7 in slot 0. */

static table example(uint16_t blocks)
{
    table t = empty_table(1);

    for (uint16_t i = 0; i < blocks; i++)
        admit(&t, example_block(i));
    return t;
}

/* The buffer's content is no matter: only the place's numbers are written, and all of them. */
static bool chain_interpreted(uint16_t content)
{
    table t = example(4), wanted = t;
    buffer b = of_number(content), rest;

    for (size_t place = 0; place < 4; place++) {
        row(&wanted, place)[MARK] = 1;
        if (!is(interpret(&t, place, &b), 0, 0) || !same(&t, &wanted))
            return false;
    }
    rest = of_number(content);
    memcpy(rest.numbers, b.numbers, 2 * 4 * GT_PART_NUMBERS);
    return same_numbers(&b, &rest) && made(&b, 0, 0, 7, 0, 0, 0) && made(&b, 1, 0, 0, 7, 0, 0) && made(&b, 2, 0, 0, 0, 7, 0)
        && made(&b, 3, 0, 0, 0, 0, 7) && record_of(&b, 3, 0)[DELIVERED] == 7 && made(&b, 3, 7, 0, 0, 0, 0);
}

static void check_interpreted(void)
{
    check("interpretation, the chain of four into zeros", chain_interpreted(0));
    check("interpretation, the chain of four into other numbers", chain_interpreted(0xa5a5));
}

static void check_refused(void)
{
    table t = example(3), marked = example(3), unlawful = filled_with(0);
    uint16_t none = 0;

    row(&marked, 0)[MARK] = 1;
    check("interpretation, all zeros", refused(unlawful, 0, 2, 0));
    check("interpretation, a table of 3850 bytes", refused_of_length(t, GT_TABLE_BYTES - 1, 0, GT_RECORDS_NUMBERS, 2, 0));
    check("interpretation, a table of 0 bytes at NULL", is(gt_interpret(NULL, 0, 0, &none, 1), 2, 0));
    check("interpretation, 20479 numbers", refused_of_length(t, GT_TABLE_BYTES, 0, GT_RECORDS_NUMBERS - 1, 12, 0));
    check("interpretation, 20481 numbers", refused_of_length(t, GT_TABLE_BYTES, 0, GT_RECORDS_NUMBERS + 1, 12, 0));
    check("interpretation, 0 numbers at NULL", is(gt_interpret(t.bytes, GT_TABLE_BYTES, 0, NULL, 0), 12, 0));
    check("interpretation, place 0 of an empty table", refused(empty_table(4), 0, 13, 0));
    check("interpretation, place 3 of three", refused(t, 3, 13, 0));
    check("interpretation, place 64", refused(t, 64, 13, 0));
    check("interpretation, place 256", refused(t, 256, 13, 0));
    check("interpretation, place 2^32", refused(t, (size_t)1 << 32, 13, 0));
    check("interpretation, the greatest place", refused(t, SIZE_MAX, 13, 0));
    check("interpretation, place 0 again", refused(marked, 0, 14, 0));
    check("interpretation, place 1 before place 0", refused(t, 1, 15, 0));
    check("interpretation, place 2 before place 1", refused(marked, 2, 15, 1));
    check("interpretation: 2 before 12", refused_of_length(unlawful, GT_TABLE_BYTES, 0, 1, 2, 0));
    check("interpretation: 12 before 13", refused_of_length(t, GT_TABLE_BYTES, 9, 1, 12, 0));
}

/* ---- Lists of calls */

/* The chain of four, with calls that are refused among them. */
static list chain_list(void)
{
    list l = {.length = 0};

    put_interpretation(&l, 0);
    put_admission(&l, example_block(1), 1);
    for (uint16_t i = 0; i < 4; i++) {
        put_admission(&l, example_block(i), 2);
        put_admission(&l, example_block(i), 1);
        put_interpretation(&l, i);
    }
    put_interpretation(&l, (uint64_t)1 << 40);
    return l;
}

enum { CALLS = 15, UNTOUCHED = 99 };

/* What the calls of chain_list are answered: refusal and value of each. */
static const uint64_t chain_answers[2 * CALLS] = {13, 0, 9, 0, 5, 0, 0, 0, 0, 0, 5, 0, 0, 1,  0,
                                                  0,  5, 0, 0, 2, 0, 0, 5, 0, 0, 3, 0, 0, 13, 0};

/* The answers that fit are there, and the elements after them stay. */
static bool answers_put(size_t answers_length)
{
    table t = empty_table(1);
    buffer b = of_number(0);
    list l = chain_list();
    uint64_t answers[2 * CALLS + 2];
    size_t written = answers_length / 2 < CALLS ? answers_length / 2 : CALLS;
    bool ok = true;

    for (size_t i = 0; i < 2 * CALLS + 2; i++)
        answers[i] = UNTOUCHED;
    ok = replay(&t, &b, &l, l.length, answers, answers_length) == CALLS;
    for (size_t i = 0; i < 2 * CALLS + 2; i++)
        ok = ok && answers[i] == (i < 2 * written ? chain_answers[i] : UNTOUCHED);
    return ok && made(&b, 3, 0, 0, 0, 0, 7);
}

/* Cut anywhere, a list leaves what its whole calls leave. */
static bool cut_anywhere(void)
{
    list l = chain_list();
    size_t calls = 0, at = 0, next = 9;

    for (size_t length = 0; length <= l.length; length++) {
        table t = empty_table(1);
        buffer b = of_number(0);
        if (length == next) {
            at = next;
            calls++;
            next = at == l.length ? SIZE_MAX : l.bytes[at] == 1 ? at + 9 : at + 10 + l.bytes[at + 2] + 256u * l.bytes[at + 3];
        }
        if (replay(&t, &b, &l, length, NULL, 0) != calls)
            return false;
    }
    return calls == CALLS;
}

static bool nothing_run(list l)
{
    table t = example(2), before = t;
    buffer b = of_number(3), numbers_before = b;

    return replay(&t, &b, &l, l.length, NULL, 0) == 0 && same(&t, &before) && same_numbers(&b, &numbers_before);
}

static void check_replay(void)
{
    list unknown = chain_list(), long_block = {.bytes = {0, 1}, .length = 2};

    unknown.bytes[0] = 4;
    put_word(&long_block, UINT64_MAX);
    check("replay, every answer put", answers_put(2 * CALLS));
    check("replay, room for more answers", answers_put(2 * CALLS + 2));
    check("replay, half an answer is not put", answers_put(2 * CALLS - 1));
    check("replay, room for one answer", answers_put(2));
    check("replay, room for no answer", answers_put(1) && answers_put(0));
    check("replay, cut anywhere", cut_anywhere());
    check("replay, an unknown first byte", nothing_run(unknown));
    check("replay, a block of 2^64 - 1 bytes", nothing_run(long_block));
    check("replay, nothing lent", gt_replay(NULL, 0, NULL, 0, NULL, 0, NULL, 0) == 0);
}

int main(void)
{
    check_interpreted();
    check_refused();
    check_replay();
    check("a list of calls stays as it was", only_read);
    return all_ok ? EXIT_SUCCESS : EXIT_FAILURE;
}
