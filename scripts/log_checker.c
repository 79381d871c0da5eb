/* Checks steps of a log, as the crate clause_check does: the checker in C that scripts/measure_log.py compares it with.

   log_checker STEPS HINTS MORE ROUNDS      a chain of clauses
   log_checker FILE ROUNDS                  the log of a file: variables, and lines of literals, 0, hints, 0; a clause has no hints

   A literal is twice its variable, and one more for the negation. All clauses are in one array, with the offsets at
   which they end. A literal is false where its stamp is the step's number. */

#include <stdint.h>
#include <stdio.h>
#include <stdlib.h>
#include <string.h>

enum fault { NONE, LITERALS, RANGE, TRUE, TWO, EARLY, OPEN, MEMORY };

struct log {
    size_t variables, clauses, clause_room, length, room;
    size_t *ends;
    uint32_t *literals, *stamps;
    uint32_t round;
};

static int grow(void **array, size_t *room, size_t need, size_t size)
{
    if (need <= *room)
        return 1;
    size_t more = *room * 2 < need ? need : *room * 2;
    void *moved = realloc(*array, more * size);
    if (!moved)
        return 0;
    *array = moved;
    *room = more;
    return 1;
}

static int push(struct log *log, const uint32_t *literals, size_t count)
{
    if (!grow((void **)&log->ends, &log->clause_room, log->clauses + 1, sizeof *log->ends))
        return 0;
    if (!grow((void **)&log->literals, &log->room, log->length + count, sizeof *log->literals))
        return 0;
    memcpy(log->literals + log->length, literals, count * sizeof *literals);
    log->length += count;
    log->ends[log->clauses++] = log->length;
    return 1;
}

static enum fault deny(struct log *log, const uint32_t *literals, size_t count)
{
    for (size_t i = 0; i < count; i++) {
        uint32_t literal = literals[i];
        if (literal < 2 || literal / 2 > log->variables)
            return LITERALS;
        if (log->stamps[literal] == log->round || log->stamps[literal ^ 1] == log->round)
            return LITERALS;
        log->stamps[literal] = log->round;
    }
    return NONE;
}

/* where a clause has two literals that are not false */
static enum fault several(const struct log *log, const uint32_t *clause, const uint32_t *end)
{
    for (; clause < end; clause++)
        if (log->stamps[*clause ^ 1] == log->round)
            return TRUE;
    return TWO;
}

static enum fault propagate(struct log *log, const size_t *hints, size_t count)
{
    uint32_t *stamps = log->stamps, round = log->round;
    for (size_t i = 0; i < count; i++) {
        size_t hint = hints[i];
        if (hint == 0 || hint > log->clauses)
            return RANGE;
        const uint32_t *clause = log->literals + (hint == 1 ? 0 : log->ends[hint - 2]);
        const uint32_t *end = log->literals + log->ends[hint - 1];
        uint32_t open = 0;
        for (const uint32_t *at = clause; at < end; at++) {
            uint32_t literal = *at;
            if (stamps[literal] == round || literal == open)
                continue;
            if (open)
                return several(log, clause, end);
            open = literal;
        }
        if (!open)
            return i + 1 == count ? NONE : EARLY;
        if (stamps[open ^ 1] == round)
            return TRUE;
        stamps[open ^ 1] = round;
    }
    return OPEN;
}

static enum fault step(struct log *log, const uint32_t *literals, size_t count, const size_t *hints, size_t hint_count)
{
    if (++log->round == 0) {
        memset(log->stamps, 0, (2 * log->variables + 2) * sizeof *log->stamps);
        log->round = 1;
    }
    enum fault fault = deny(log, literals, count);
    if (!fault)
        fault = propagate(log, hints, hint_count);
    if (!fault && !push(log, literals, count))
        fault = MEMORY;
    return fault;
}

/* not `from`, or `to`, or one of the further variables */
static size_t clause(uint32_t *literals, size_t from, size_t to, size_t chain, size_t more)
{
    literals[0] = 2 * from + 1;
    literals[1] = 2 * to;
    for (size_t i = 0; i < more; i++)
        literals[2 + i] = 2 * (chain + 1 + i);
    return 2 + more;
}

static enum fault checked(size_t steps, size_t hints, size_t more)
{
    size_t chain = hints + 1;
    struct log log = { .variables = chain + more };
    log.stamps = calloc(2 * log.variables + 2, sizeof *log.stamps);
    size_t *numbers = malloc(hints * sizeof *numbers);
    uint32_t *literals = malloc((2 + more) * sizeof *literals);
    enum fault fault = log.stamps && numbers && literals ? NONE : MEMORY;
    for (size_t i = 0; !fault && i < hints; i++) {
        numbers[i] = i + 1;
        if (!push(&log, literals, clause(literals, i + 1, i + 2, chain, more)))
            fault = MEMORY;
    }
    size_t count = fault ? 0 : clause(literals, 1, chain, chain, more);
    for (size_t i = 0; !fault && i < steps; i++)
        fault = step(&log, literals, count, numbers, hints);
    free(log.ends), free(log.literals), free(log.stamps), free(numbers), free(literals);
    return fault;
}

struct lines {
    size_t variables, count, numbers;
    size_t line_room, number_room;
    size_t *starts, *middles; /* where the literals of a line begin, and its hints */
    size_t *all;
};

/* the numbers of a file: literals by their codes */
static int read_lines(struct lines *lines, const char *name)
{
    FILE *file = fopen(name, "r");
    long number;
    int in_hints = 0;
    if (!file || fscanf(file, "%zu", &lines->variables) != 1)
        return 0;
    lines->starts = malloc(sizeof *lines->starts), lines->middles = malloc(sizeof *lines->middles);
    lines->line_room = 1;
    size_t middle_room = 1;
    while (fscanf(file, "%ld", &number) == 1) {
        if (!grow((void **)&lines->all, &lines->number_room, lines->numbers + 1, sizeof *lines->all))
            return 0;
        if (!in_hints && number) {
            lines->all[lines->numbers++] = number < 0 ? -2 * number + 1 : 2 * number;
        } else if (number) {
            lines->all[lines->numbers++] = number;
        } else if (!in_hints) {
            if (!grow((void **)&lines->middles, &middle_room, lines->count + 1, sizeof *lines->middles))
                return 0;
            lines->middles[lines->count] = lines->numbers, in_hints = 1;
        } else {
            if (!grow((void **)&lines->starts, &lines->line_room, lines->count + 2, sizeof *lines->starts))
                return 0;
            lines->starts[++lines->count] = lines->numbers, in_hints = 0;
        }
    }
    fclose(file);
    return 1;
}

static enum fault check_lines(const struct lines *lines)
{
    struct log log = { .variables = lines->variables };
    enum fault fault = NONE;
    uint32_t *literals = malloc((lines->numbers + 1) * sizeof *literals);
    log.stamps = calloc(2 * log.variables + 2, sizeof *log.stamps);
    if (!log.stamps || !literals)
        fault = MEMORY;
    for (size_t i = 0; !fault && i < lines->numbers; i++)
        literals[i] = lines->all[i];
    for (size_t i = 0; !fault && i < lines->count; i++) {
        size_t start = i ? lines->starts[i] : 0, middle = lines->middles[i], end = lines->starts[i + 1];
        if (middle == end)
            fault = push(&log, literals + start, middle - start) ? NONE : MEMORY;
        else
            fault = step(&log, literals + start, middle - start, lines->all + middle, end - middle);
    }
    free(log.ends), free(log.literals), free(log.stamps), free(literals);
    return fault;
}

static int check_file(const char *name, long rounds)
{
    struct lines lines = { 0 };
    enum fault fault = NONE;
    if (!read_lines(&lines, name))
        return 2;
    for (; !fault && rounds > 0; rounds--)
        fault = check_lines(&lines);
    puts(fault ? "false" : "true");
    return 0;
}

int main(int count, char **words)
{
    enum fault fault = NONE;
    if (count == 3)
        return check_file(words[1], atol(words[2]));
    if (count != 5)
        return 2;
    for (long i = atol(words[4]); !fault && i > 0; i--)
        fault = checked(atol(words[1]), atol(words[2]), atol(words[3]));
    puts(fault ? "false" : "true");
    return 0;
}
