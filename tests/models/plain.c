/* Numbers, the judging of a container, the audit and the feeder, written from documents 01 and 02 in plain C. */
#include <string.h>

#include "layout.h"
#include "plain.h"

/* The causes of a message and of a grant whose pools are missing, and the place of the header where the place is a granule. */
enum { MISSING_POOL = 14, MISSING_GRANT_POOL = 21, HEADER_PLACE = 12 };

struct marks {
    int populated, responses, misc, activation;
};

static uint32_t refuse(unsigned cause, unsigned place) {
    return cause * 65536u + place;
}

static uint8_t header(uint32_t format, const uint8_t *c, unsigned i) {
    return c[header_place(format, i)];
}

static int all_zero(const uint8_t *p, size_t n) {
    for (size_t i = 0; i < n; i++)
        if (p[i] != 0)
            return 0;
    return 1;
}

static int form_ok(uint8_t b) {
    return b < 2 * PLANES && (b % 2 == 0 || b / 2 == 0);
}

static int head_ok(unsigned type, unsigned op, const uint8_t *p) {
    if (p[0] / 16u >= flag_values(type))
        return 0;
    if (type == WR_REQ_DATA_S || type == WR_REQ_DATA_L)
        return p[1] <= 1;
    if (type == MISC_U && op == ACTIVATION)
        return p[2] >= 1 && p[2] <= ACTIVATIONS;
    if (type == MISC_U && op == CRDT_GRANT)
        return form_ok(p[FORM]) && all_zero(p + FORM_END, message_size(type, op) - FORM_END);
    return 1;
}

/* The cause of granule g, 0 if none; fills its marks and what is owed behind it. */
static unsigned granule(unsigned g, int starts, const uint8_t *p, size_t width, size_t *owed, struct marks *m) {
    int on = *owed > 0 && width == 20;
    if (on && starts)
        return 5;
    if (on) {
        m->populated = 1;
        *owed = *owed > 20 ? *owed - 20 : 0;
        return 0;
    }
    if (!starts)
        return all_zero(p, width) ? 0 : 9;
    unsigned type = p[0] % 16, op = p[1];
    size_t size = message_size(type, op);
    if (size == 0)
        return 6;
    if (!place_ok(g, width, type, op, size))
        return 7;
    if (!head_ok(type, op, p))
        return 8;
    if (size < width && !all_zero(p + size, width - size))
        return 9;
    m->populated = 1;
    m->responses = (int)count_responses(type);
    m->misc = type == MISC_U;
    m->activation = type == MISC_U && op == ACTIVATION;
    if (width == 20 && size > 20)
        *owed = size - 20;
    return 0;
}

static uint32_t groups(const struct marks *m) {
    for (unsigned q = 0; q < 4; q++, m += 3) {
        if ((m[1].populated && !m[0].populated) || (m[2].populated && !m[1].populated))
            return refuse(10, q);
        if (m[0].misc + m[1].misc + m[2].misc > GROUP_MISCS)
            return refuse(11, q);
        if (m[0].responses + m[1].responses + m[2].responses > GROUP_RESPONSES)
            return refuse(12, q);
    }
    return 0;
}

static int has_counts(uint32_t format, const uint8_t *c) {
    return header(format, c, 3) || header(format, c, 4) || header(format, c, 5) || header(format, c, 6);
}

static unsigned start_bits(uint32_t format, const uint8_t *c) {
    return header(format, c, 0) + 256u * header(format, c, 1);
}

/* Judges a container by 1 and 3 to 13, `owed` being the bytes owed of a carried message; leaves those owed behind it. */
static uint32_t judge(uint32_t format, const uint8_t *c, size_t len, size_t *owed) {
    struct marks marks[GRANULES] = {{0, 0, 0, 0}};
    if (len != CONTAINER)
        return refuse(1, 0);
    uint8_t p1 = header(format, c, 1), p2 = header(format, c, 2);
    if (p1 > 15 || p2 > 15 || header(format, c, 7) || header(format, c, 8) || header(format, c, 9))
        return refuse(3, 0);
    if (!form_ok(p2))
        return refuse(4, 0);
    unsigned starts = start_bits(format, c);
    for (unsigned g = 0; g < GRANULES; g++) {
        unsigned cause = granule(g, starts >> g & 1, c + granule_start(g), granule_size(format, g), owed, &marks[g]);
        if (cause != 0)
            return refuse(cause, g);
    }
    uint32_t answer = groups(marks);
    if (answer != 0)
        return answer;
    for (unsigned g = 0; g < GRANULES; g++)
        if (marks[g].activation && has_counts(format, c))
            return refuse(13, 0);
    return 0;
}

uint32_t plain_judge(uint32_t format, const uint8_t *c, size_t len) {
    size_t owed = 0;
    return format > 1 ? refuse(19, 0) : judge(format, c, len, &owed);
}

int plain_has_pool(const struct plain_receiver *r, unsigned p) {
    if (p >= FIRST_PLANE && p < RSP)
        return p <= r->planes;
    if (p == DEDICATED_0)
        return r->push;
    if (p == DEDICATED_1)
        return r->push && r->planes >= 2;
    return 1;
}

unsigned plain_charges(const uint8_t *m, unsigned pools[2]) {
    unsigned type = m[0] % 16, shared = m[0] / 16 % 2, plane = m[0] / 32;
    switch (type) {
    case REQ_S: case REQ_L:
        pools[0] = shared ? SHARED_REQ : FIRST_PLANE + plane;
        return 1;
    case RESP: case RESP2:
        pools[0] = pools[1] = RSP;
        return count_responses(type);
    case SNOOP:
        pools[0] = SNP;
        return 1;
    case DATA_S: case DATA_L:
        pools[0] = shared ? SHARED_DAT : DEDICATED_0;
        return 1;
    case WR_REQ_DATA_S: case WR_REQ_DATA_L:
        pools[0] = shared ? SHARED_REQ : FIRST_PLANE + plane;
        pools[1] = m[1] % 2 ? SHARED_DAT : DEDICATED_1;
        return 2;
    default:
        return 0;
    }
}

int plain_payable(const struct plain_receiver *r, const uint8_t *m) {
    unsigned type = m[0] % 16, shared = m[0] / 16 % 2, plane = m[0] / 32;
    switch (type) {
    case REQ_S: case REQ_L:
        return plane < r->planes;
    case DATA_S: case DATA_L:
        return shared || plain_has_pool(r, DEDICATED_0);
    case WR_REQ_DATA_S: case WR_REQ_DATA_L:
        return plane < r->planes && r->push && (m[1] % 2 || plain_has_pool(r, DEDICATED_1));
    default:
        return 1;
    }
}

void plain_count_charges(const uint8_t *m, unsigned counts[POOLS]) {
    unsigned pools[2], n = plain_charges(m, pools);
    for (unsigned i = 0; i < n; i++)
        counts[pools[i]]++;
}

/* Whether a grant form finds its plane, whatever its counts, and a pool for a DAT count that is not zero. */
static int grantable(const struct plain_receiver *r, const uint8_t form[5]) {
    unsigned shc = form[0] % 2, rp = form[0] / 2, dat = form[4];
    return shc || (rp < r->planes && (dat == 0 || (r->push && rp <= 1)));
}

/* Counts what a grant form gives. */
static void count_grant(const uint8_t form[5], unsigned counts[POOLS]) {
    counts[plain_grant_pool(form[0], 0)] += form[1];
    counts[plain_grant_pool(form[0], 1)] += form[2];
    counts[plain_grant_pool(form[0], 2)] += form[3];
    if (form[4] != 0)
        counts[plain_grant_pool(form[0], 3)] += form[4];
}

/* Judges the messages that start by 14 and counts what they pay. */
static uint32_t begin_messages(const struct plain_receiver *r, unsigned starts, const uint8_t *c, unsigned begun[POOLS]) {
    for (unsigned g = 0; g < GRANULES; g++) {
        const uint8_t *m = c + granule_start(g);
        if (!(starts >> g & 1))
            continue;
        if (!plain_payable(r, m))
            return refuse(MISSING_POOL, g);
        plain_count_charges(m, begun);
    }
    return 0;
}

/* Judges the grant form of a place by 21 and counts what it gives. */
static uint32_t give(const struct plain_receiver *r, unsigned place, const uint8_t form[5], unsigned granted[POOLS]) {
    if (!grantable(r, form))
        return refuse(MISSING_GRANT_POOL, place);
    count_grant(form, granted);
    return 0;
}

/* Judges the header's grant and then the CrdtGrants by 21 and counts what they give. */
static uint32_t give_grants(const struct plain_receiver *r, uint32_t format, const uint8_t *c, unsigned granted[POOLS]) {
    unsigned starts = start_bits(format, c);
    uint8_t form[5];
    for (unsigned i = 0; i < 5; i++)
        form[i] = header(format, c, 2 + i);
    uint32_t answer = give(r, HEADER_PLACE, form, granted);
    for (unsigned g = 0; g < GRANULES && answer == 0; g++) {
        const uint8_t *m = c + granule_start(g);
        if ((starts >> g & 1) && m[0] % 16 == MISC_U && m[1] == CRDT_GRANT)
            answer = give(r, g, m + FORM, granted);
    }
    return answer;
}

/* 15 by what begins in direction d, then 16 by what is granted to the other. */
static uint32_t judge_pools(const struct plain_ledger *l, unsigned d, const unsigned begun[POOLS], const unsigned granted[POOLS]) {
    unsigned other = 1 - d;
    for (unsigned p = 0; p < POOLS; p++)
        if (begun[p] > l->held[d][p])
            return refuse(15, p);
    for (unsigned p = 0; p < POOLS; p++)
        if (l->held[other][p] + granted[p] + l->open[other][p] > l->receiver[other].capacity[p])
            return refuse(16, p);
    return 0;
}

/* The bytes owed of a carried message. */
static size_t owed_of(const struct plain_carry *carry) {
    return carry->len == 0 ? 0 : message_size(carry->bytes[0] % 16, carry->bytes[1]) - carry->len;
}

/* Takes the last longer message that starts in a container, of which bytes are owed behind it. */
static void take_carry(uint32_t format, const uint8_t *c, struct plain_carry *carry) {
    unsigned starts = start_bits(format, c), g = GRANULES - 1;
    while (!(starts >> g & 1) || message_size(c[granule_start(g)] % 16, c[granule_start(g) + 1]) <= 20)
        g--;
    for (; g < GRANULES; g++)
        if (granule_size(format, g) == 20) {
            memcpy(carry->bytes + carry->len, c + granule_start(g), 20);
            carry->len += 20;
        }
}

/* Enters an accepted container of direction d: its credits, its open messages and its carry. */
static void enter(struct plain_ledger *l, unsigned d, const uint8_t *c, size_t owed, const unsigned begun[POOLS],
                  const unsigned granted[POOLS]) {
    unsigned open[POOLS] = {0};
    l->carry[d] = (struct plain_carry){0};
    if (owed > 0) {
        take_carry(l->format, c, &l->carry[d]);
        plain_count_charges(l->carry[d].bytes, open);
    }
    for (unsigned p = 0; p < POOLS; p++) {
        l->held[d][p] -= begun[p];
        l->held[1 - d][p] += granted[p];
        l->open[d][p] = open[p];
    }
}

/* The answer as cause and place. */
static unsigned tell(uint32_t answer, uint64_t *place) {
    *place = answer % 65536;
    return answer / 65536;
}

unsigned plain_step(struct plain_ledger *l, unsigned d, const uint8_t *c, size_t len, uint64_t *place) {
    unsigned begun[POOLS] = {0}, granted[POOLS] = {0};
    size_t owed = owed_of(&l->carry[d]);
    uint32_t answer = judge(l->format, c, len, &owed);
    if (answer == 0)
        answer = begin_messages(&l->receiver[d], start_bits(l->format, c), c, begun);
    if (answer == 0)
        answer = give_grants(&l->receiver[1 - d], l->format, c, granted);
    if (answer == 0)
        answer = judge_pools(l, d, begun, granted);
    if (answer == 0)
        enter(l, d, c, owed, begun, granted);
    return tell(answer, place);
}

static int receiver_valid(const struct plain_receiver *r) {
    if (r->planes < 1 || r->planes > PLANES)
        return 0;
    for (unsigned p = 0; p < POOLS; p++)
        if (r->capacity[p] > CAPACITY || (r->capacity[p] > 0 && !plain_has_pool(r, p)))
            return 0;
    return 1;
}

/* Whether a carry is empty, or the first 20k bytes of a well-headed longer message, with zeros behind. */
static int carry_valid(const struct plain_carry *carry) {
    unsigned type = carry->bytes[0] % 16, op = carry->bytes[1];
    if (carry->len > PART || !all_zero(carry->bytes + carry->len, PART - carry->len))
        return 0;
    if (carry->len == 0)
        return 1;
    return carry->len % 20 == 0 && carry->len < message_size(type, op) && head_ok(type, op, carry->bytes);
}

/* Whether the open messages of direction d follow from its carry, and held plus open is at most capacity. */
static int pools_valid(const struct plain_ledger *l, unsigned d) {
    unsigned open[POOLS] = {0};
    if (l->carry[d].len > 0)
        plain_count_charges(l->carry[d].bytes, open);
    for (unsigned p = 0; p < POOLS; p++)
        if (l->open[d][p] != open[p] || (uint64_t)l->held[d][p] + open[p] > l->receiver[d].capacity[p])
            return 0;
    return 1;
}

static int direction_valid(const struct plain_ledger *l, unsigned d) {
    if (!receiver_valid(&l->receiver[d]) || !carry_valid(&l->carry[d]))
        return 0;
    if (l->carry[d].len > 0 && !plain_payable(&l->receiver[d], l->carry[d].bytes))
        return 0;
    return pools_valid(l, d);
}

int plain_valid(const struct plain_ledger *l) {
    return l->format < 2 && direction_valid(l, 0) && direction_valid(l, 1);
}

unsigned plain_audit(struct plain_ledger *l, unsigned d, const uint8_t *c, size_t len, uint64_t *place) {
    if (d > 1 || !plain_valid(l))
        return tell(refuse(19, 0), place);
    return plain_step(l, d, c, len, place);
}

struct plain_ledger plain_ledger_open(const uint32_t numbers[NUMBERS]) {
    struct plain_ledger l = {0};
    l.format = numbers[0];
    for (unsigned d = 0; d < 2; d++) {
        const uint32_t *n = numbers + 1 + RECEIVER * d;
        l.receiver[d].planes = n[0];
        l.receiver[d].push = n[1] != 0;
        memcpy(l.receiver[d].capacity, n + 2, sizeof l.receiver[d].capacity);
    }
    return l;
}

int plain_configured(const uint32_t *numbers, size_t numbers_len) {
    if (numbers_len != NUMBERS || numbers[2] > 1 || numbers[2 + RECEIVER] > 1)
        return 0;
    struct plain_ledger l = plain_ledger_open(numbers);
    return plain_valid(&l);
}

/* A run before its entries, refused by 19 if the numbers are no configuration. */
static struct plain_run open_run(const uint32_t *numbers, size_t numbers_len) {
    struct plain_run run = {0};
    if (plain_configured(numbers, numbers_len))
        run.ledger = plain_ledger_open(numbers);
    else
        run.cause = 19;
    return run;
}

size_t plain_read_number(const uint8_t *bytes, size_t len, uint64_t *value) {
    *value = 0;
    for (size_t i = 0; i < len && i < 5; i++) {
        *value += (uint64_t)(bytes[i] % 128) << (7 * i);
        if (bytes[i] < 128)
            return (i > 0 && bytes[i] == 0) || *value > UINT32_MAX ? 0 : i + 1;
    }
    return 0;
}

size_t plain_put_number(uint32_t number, uint8_t *out) {
    size_t n = 0;
    for (; number >= 128; number /= 128)
        out[n++] = (uint8_t)(128 + number % 128);
    out[n] = (uint8_t)number;
    return n + 1;
}

/* The bytes of the number of the entry at the front, and the entry's direction; 0 if it is not whole. */
static size_t frame_entry(const uint8_t *bytes, size_t len, unsigned *direction) {
    uint64_t number;
    size_t used = plain_read_number(bytes, len, &number);
    *direction = (unsigned)(number % 2);
    return len - used < CONTAINER ? 0 : used;
}

/* The entries at the front, up to the first that is refused or not whole. */
static inline struct plain_run run_entries(const uint32_t *numbers, size_t numbers_len, const uint8_t *entries, size_t len,
                                           plain_auditing *audit) {
    struct plain_run run = open_run(numbers, numbers_len);
    while (run.cause == 0) {
        unsigned direction;
        const uint8_t *entry = entries + run.used;
        size_t number = frame_entry(entry, len - run.used, &direction);
        if (number == 0)
            break;
        run.cause = audit(&run.ledger, direction, entry + number, CONTAINER, &run.place);
        if (run.cause == 0) {
            run.count++;
            run.used += number + CONTAINER;
        }
    }
    return run;
}

struct plain_run plain_run(const uint32_t *numbers, size_t numbers_len, const uint8_t *entries, size_t len) {
    return run_entries(numbers, numbers_len, entries, len, plain_step);
}

struct plain_run plain_run_each(const uint32_t *numbers, size_t numbers_len, const uint8_t *entries, size_t len) {
    return run_entries(numbers, numbers_len, entries, len, plain_audit);
}

/* The bytes of the record at the front of a list, 0 if it is broken or, by `responses`, in the wrong list. */
static size_t measure_record(const uint8_t *list, size_t len, int responses) {
    uint64_t size;
    size_t used = plain_read_number(list, len, &size);
    if (used == 0 || size < 2 || size > len - used)
        return 0;
    const uint8_t *m = list + used;
    unsigned type = m[0] % 16, op = m[1];
    if (message_size(type, op) != size || !head_ok(type, op, m))
        return 0;
    return (count_responses(type) > 0) == responses ? used + size : 0;
}

uint32_t plain_feed(uint32_t format, uint32_t *feed, size_t feed_len, const uint8_t *responses, size_t responses_len,
                    const uint8_t *others, size_t others_len, uint8_t *room, size_t room_len) {
    enum { RUN = 4 };
    if (feed_len != FEED || format > 1 || feed[0] > responses_len || feed[1] > others_len || feed[2] > RUN)
        return 19 * CAUSE;
    if (room_len < RECORD)
        return 2 * CAUSE;
    if (responses_len > LIST || others_len > LIST)
        return 18 * CAUSE;
    int first = feed[0] < responses_len, second = feed[1] < others_len, due = second && (!first || feed[2] == RUN);
    uint32_t run = feed[2];
    feed[2] = first || second ? run : 0;
    if (!first && !second)
        return 0;
    const uint8_t *record = due ? others + feed[1] : responses + feed[0];
    size_t size = measure_record(record, due ? others_len - feed[1] : responses_len - feed[0], !due);
    uint32_t list = due ? 2 * WAITING : WAITING;
    if (size == 0)
        return 17 * CAUSE + list + feed[due];
    memcpy(room, record, size);
    feed[due] += (uint32_t)size;
    feed[2] = !due && second ? run + 1 : 0;
    return list + (uint32_t)size;
}
