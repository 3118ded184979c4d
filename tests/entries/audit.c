/* Audits every log of a vector file and random traffic, and compares with the verdicts of the file and with plain C. */
#include <stdio.h>
#include <string.h>

#include "../models/layout.h"
#include "../models/plain.h"
#include "../tools/audit_probe.h"
#include "../tools/traffic.h"
#include "../tools/vectors.h"

enum { BYTES = 65536, RUN = 24, JUDGED = 200000, LAST_CAUSE = 21 };

static const char heads[] = "name\tverdict\tlog";

/* The report of numbers that are no configuration, or of no direction or pool. */
static const uint64_t REFUSED = (uint64_t)19 << 48;

/* What a run is made of: numbers, and entries one behind the other, of which the last may be cut short. Random entries begin at `starts`. */
struct input {
    uint32_t numbers[NUMBERS + 1];
    size_t numbers_len;
    uint8_t entries[BYTES];
    size_t len, starts[RUN + 1];
};

static unsigned differences;

/* Prints a difference and counts it. */
static void differ(const char *name, const char *what, uint64_t ours, uint64_t wanted) {
    printf("%s: %s %llu, wanted %llu\n", name, what, (unsigned long long)ours, (unsigned long long)wanted);
    differences++;
}

static void same(const char *name, const char *what, uint64_t ours, uint64_t wanted) {
    if (ours != wanted)
        differ(name, what, ours, wanted);
}

/* Compares cause, place, count and bytes used of the library with the wanted ones. */
static void compare_answer(const char *name, const struct input *in, unsigned cause, uint64_t place, size_t count, size_t used) {
    same(name, "cause", c2c_audit(in->numbers, in->numbers_len, in->entries, in->len), cause);
    same(name, "cause by a call each", c2c_audit_each(in->numbers, in->numbers_len, in->entries, in->len), cause);
    same(name, "place", c2c_audit_place(in->numbers, in->numbers_len, in->entries, in->len), place);
    same(name, "count", c2c_audit_count(in->numbers, in->numbers_len, in->entries, in->len), count);
    same(name, "bytes used", c2c_audit_used(in->numbers, in->numbers_len, in->entries, in->len), used);
}

/* Compares the report of a direction and pool with the wanted one. */
static void compare_report(const char *name, const struct input *in, uint32_t d, uint32_t p, uint64_t wanted) {
    same(name, "report", c2c_audit_report(in->numbers, in->numbers_len, in->entries, in->len, d, p), wanted);
}

/* Compares the reports of all pools with a ledger of plain C, and some of no direction or pool. */
static void compare_reports(const char *name, const struct input *in, const struct plain_ledger *l) {
    static const uint32_t none[5][2] = {{2, 0}, {0, POOLS}, {1, POOLS}, {UINT32_MAX, 0}, {0, UINT32_MAX}};
    int configured = plain_configured(in->numbers, in->numbers_len);
    for (unsigned d = 0; d < 2; d++)
        for (unsigned p = 0; p < POOLS; p++)
            compare_report(name, in, d, p, configured ? ((uint64_t)l->held[d][p] << 32) + l->open[d][p] : REFUSED);
    for (unsigned i = 0; i < 5; i++)
        compare_report(name, in, none[i][0], none[i][1], REFUSED);
}

/* Compares the library with plain C, by one run and by a call each; answers plain C's run. */
static struct plain_run compare_plain(const char *name, const struct input *in) {
    struct plain_run run = plain_run(in->numbers, in->numbers_len, in->entries, in->len);
    struct plain_run each = plain_run_each(in->numbers, in->numbers_len, in->entries, in->len);
    same(name, "plain C's cause by a call each", each.cause, run.cause);
    same(name, "plain C's place by a call each", each.place, run.place);
    same(name, "plain C's count by a call each", each.count, run.count);
    same(name, "plain C's bytes used by a call each", each.used, run.used);
    compare_answer(name, in, run.cause, run.place, run.count, run.used);
    compare_reports(name, in, &run.ledger);
    return run;
}

/* Reads the numbers of a log's configuration, up to one that is broken; answers the bytes they take. */
static size_t read_numbers(const uint8_t *log, size_t len, struct input *in) {
    size_t at = 0;
    for (in->numbers_len = 0; in->numbers_len < NUMBERS; in->numbers_len++) {
        uint64_t number;
        size_t used = plain_read_number(log + at, len - at, &number);
        if (used == 0)
            break;
        in->numbers[in->numbers_len] = (uint32_t)number;
        at += used;
    }
    return at;
}

/* Runs the log that was read against its verdict. */
static void run_log(const struct vectors *v) {
    static uint8_t log[BYTES];
    static struct input in;
    const char *name = v->field[0], *verdict = v->field[1];
    unsigned count = 0, cause = 0;
    unsigned long long place = 0;
    size_t len = vectors_bytes(v, 2, log, BYTES), used = read_numbers(log, len, &in);
    if (sscanf(verdict, "accepted %u", &count) != 1 && sscanf(verdict, "refused %u %u %llu", &count, &cause, &place) != 3)
        vectors_fail(v, "a field that is no verdict");
    in.len = len - used;
    memcpy(in.entries, log + used, in.len);
    struct plain_run run = compare_plain(name, &in);
    if (in.numbers_len < NUMBERS) {
        /* a broken number of the configuration is 17 in the log, but the numbers before it are too few and so 19 */
        if (count != 0 || (cause != 17 && cause != 19))
            differ(name, "the verdict's cause of a broken configuration", cause, 17);
        cause = 19;
        place = 0;
    } else if (cause == 17) {
        /* an entry that is not whole is 17 at its offset in the log, but here it is left over */
        same(name, "bytes before an entry that is not whole", used + run.used, place);
        cause = 0;
        place = 0;
    } else if (cause == 0)
        same(name, "bytes of an accepted log", used + run.used, len);
    same(name, "plain C's cause", run.cause, cause);
    same(name, "plain C's place", run.place, place);
    same(name, "plain C's count", run.count, count);
}

/* Runs every log of a file; answers how many there are. */
static unsigned run_logs(const char *path) {
    static struct vectors vectors;
    vectors_open(&vectors, path, heads);
    while (vectors_next(&vectors))
        run_log(&vectors);
    return vectors.count;
}

/* Draws a format and receivers, with few or many credits, each with and without push and of 1, 2, 8 or any planes. */
static void draw_numbers(uint32_t numbers[NUMBERS]) {
    static const unsigned most[4] = {2, 6, 300, CAPACITY};
    numbers[0] = draw(2);
    for (unsigned d = 0; d < 2; d++) {
        uint32_t *n = numbers + 1 + RECEIVER * d;
        unsigned planes[4] = {1, 2, PLANES, 1 + draw(PLANES)}, capacity = most[draw(4)], uneven = draw(2);
        describe_receiver(planes[draw(4)], draw(4) > 0, capacity, n);
        for (unsigned p = 0; p < POOLS && uneven; p++)
            n[2 + p] = draw(n[2 + p] + 1);
    }
}

/* Makes a run of entries that are accepted, most of them at tick 0. */
static void draw_entries(struct input *in) {
    static const uint32_t ticks[8] = {0, 0, 0, 0, 1, 64, 8192, 2147483647};
    static const struct profile profiles[3] = {{20, 25, 30, 50}, {0, 5, 25, 90}, {0, 0, 60, 70}};
    const struct profile *profile = &profiles[draw(3)];
    struct traffic t;
    traffic_open(&t, in->numbers);
    in->len = 0;
    for (unsigned i = 0; i < RUN; i++) {
        unsigned direction = draw(2);
        in->starts[i] = in->len;
        in->len += plain_put_number(2 * ticks[draw(8)] + direction, in->entries + in->len);
        traffic_next(&t, direction, profile, in->entries + in->len);
        in->len += CONTAINER;
    }
    in->starts[RUN] = in->len;
}

/* Changes one count of the header's grant by one. */
static void nudge_count(uint32_t format, uint8_t *container) {
    uint8_t *count = container + header_place(format, 3 + draw(4));
    *count = (uint8_t)(draw(2) ? *count + 1 : *count - 1);
}

/* Damages entry i: its direction or its number, a count, or other bytes of its container. */
static void damage_entry(struct input *in, unsigned i) {
    unsigned kind = draw(8);
    uint32_t format = in->numbers[0];
    uint8_t *entry = in->entries + in->starts[i], *container = in->entries + in->starts[i + 1] - CONTAINER;
    if (kind == 0)
        entry[0] = (uint8_t)(draw(8) ? entry[0] ^ 1u : draw(256));
    else if (kind < 4)
        nudge_count(format, container);
    else
        damage(format, container);
}

/* Damages one number of a configuration, often a push. */
static void damage_numbers(uint32_t numbers[NUMBERS]) {
    static const uint32_t values[6] = {0, 1, 2, PLANES + 1, CAPACITY, CAPACITY + 1};
    unsigned at = draw(4) ? draw(NUMBERS) : 2 + RECEIVER * draw(2);
    numbers[at] = draw(8) ? values[draw(6)] : 0xFFFFFFFFu - draw(3);
}

/* Makes a run of valid traffic and, three times out of four, damages some of it; some runs have a damaged configuration, a number too few
   or too many, a last entry that is cut short, or no entries. */
static void draw_run(struct input *in) {
    draw_numbers(in->numbers);
    in->numbers[NUMBERS] = draw(2);
    in->numbers_len = NUMBERS;
    draw_entries(in);
    for (unsigned i = draw(4); i > 0; i--)
        damage_entry(in, draw(RUN));
    if (draw(20) == 0)
        damage_numbers(in->numbers);
    if (draw(50) == 0)
        in->numbers_len = draw(2) ? NUMBERS - 1 : NUMBERS + 1;
    if (draw(4) == 0)
        in->len = in->starts[draw(RUN)] + 1 + draw(CONTAINER);
    if (draw(20) == 0)
        in->len = 0;
}

/* The entries that a run judges: those accepted, and one that is refused. */
static size_t count_judged(const struct input *in, const struct plain_run *run) {
    return run->count + (run->cause != 0 && plain_configured(in->numbers, in->numbers_len));
}

/* Compares random runs until enough entries are judged; answers how many runs. */
static unsigned run_random(size_t *judged) {
    static struct input in;
    unsigned runs = 0, left = 0, seen[LAST_CAUSE + 1] = {0};
    for (; *judged < JUDGED; runs++) {
        char name[32];
        draw_run(&in);
        snprintf(name, sizeof name, "random run %u", runs);
        struct plain_run run = compare_plain(name, &in);
        *judged += count_judged(&in, &run);
        seen[run.cause]++;
        left += run.cause == 0 && run.used < in.len;
    }
    printf("audit: random runs by cause:");
    for (unsigned i = 0; i <= LAST_CAUSE; i++)
        if (seen[i] > 0)
            printf(" %u (%u)", i, seen[i]);
    printf("; %u with an entry left over that is not whole\n", left);
    return runs;
}

int main(int argc, char **argv) {
    size_t judged = 0;
    if (argc != 2) {
        fprintf(stderr, "usage: audit LOGS\n");
        return 2;
    }
    unsigned logs = run_logs(argv[1]), runs = run_random(&judged);
    printf("audit: %u logs, %u random runs of %zu entries, %u differences\n", logs, runs, judged, differences);
    return logs > 0 && differences == 0 ? 0 : 1;
}
