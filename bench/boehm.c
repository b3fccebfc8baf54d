/* The same job as `bc run` over the Boehm collector (Debian's libgc-dev), as the peer that a user would pick: it replays a trace in one pass
 * over the bytes, with a garbage collector that is used as it comes, and prints the replies. `bench/shapes` runs it beside `bc`.
 *
 * The root slots are the collector's roots, and an object is a block of its own. The heap is as large as the collector makes it: superpages,
 * frames and notices of the trace mean nothing to it. It takes traces without a fault; of another it prints the first line that it can't
 * read, and ends with status 3.
 */
#include <gc.h>
#include <stdint.h>
#include <stdio.h>
#include <stdlib.h>
#include <string.h>
#include <unistd.h>

enum { LIMIT = 16777216, LANES = 16, DOMAINS = 64, SLOTS = 256, LINE = 32 };

/* A value is 0 for nil, 2v + 1 for the number v, and else the address of an object. Its first word is its head, and its fields follow. Bits 0
 * to 7 of a head are the number of fields, 8 to 15 the domain, 16 to 23 the lane of the birth, and from 24 its serial. Bit 63 is set, so that
 * the collector takes no head for an address. */
typedef uint64_t value;

/* The root slots lie in static memory, where the collector looks for roots. */
static value slots[DOMAINS * SLOTS];
static uint64_t holders[DOMAINS], serials[LANES];
static uint64_t version, lanes, domains, width;

/* What stands among the holders for a domain that all lanes may read and none may write. */
#define FROZEN UINT64_MAX

/* What is left of the trace, and the replies. Neither is memory that the collector looks at. */
static const char *start, *at, *end;
static char *replies, *told, *replies_end;

static void fault(void) {
    uint64_t line = 1;
    for (const char *byte = start; byte < at; byte++)
        line += *byte == '\n';
    fprintf(stderr, "boehm: line %llu\n", (unsigned long long)line);
    exit(3);
}

static void expect(const char *text) {
    size_t length = strlen(text);
    if ((size_t)(end - at) < length || memcmp(at, text, length) != 0)
        fault();
    at += length;
}

/* A number below the limit. The trace ends in a byte 0, which is no digit. */
static inline uint64_t number_below(uint64_t limit) {
    if (*at < '0' || *at > '9')
        fault();
    uint64_t number = 0;
    for (; *at >= '0' && *at <= '9'; at++)
        number = 10 * number + (uint64_t)(*at - '0');
    if (number >= limit)
        fault();
    return number;
}

/* A space and a number below the limit. */
static inline uint64_t operand(uint64_t limit) {
    if (*at != ' ')
        fault();
    at++;
    return number_below(limit);
}

static inline void line_end(void) {
    if (*at != '\n')
        fault();
    at++;
}

static inline int is(const char word[4]) {
    return end - at >= 4 && memcmp(at, word, 4) == 0;
}

static inline void room(void) {
    if (replies_end - told >= LINE)
        return;
    size_t size = (size_t)(replies_end - replies), used = (size_t)(told - replies);
    replies = realloc(replies, 2 * size);
    if (!replies)
        exit(1);
    told = replies + used;
    replies_end = replies + 2 * size;
}

static inline void say(const char *text, size_t length) {
    room();
    memcpy(told, text, length);
    told += length;
}
#define SAY(text) say(text, sizeof(text) - 1)

static inline void digits(uint64_t number) {
    char text[20];
    int from = 20;
    do {
        text[--from] = (char)('0' + number % 10);
        number /= 10;
    } while (number);
    memcpy(told, text + from, (size_t)(20 - from));
    told += 20 - from;
}

static inline void say_number(const char *word, size_t length, uint64_t number) {
    say(word, length);
    digits(number);
    *told++ = '\n';
}
#define SAY_NUMBER(word, number) say_number(word, sizeof(word) - 1, number)

static inline void say_birth(uint64_t lane, uint64_t serial) {
    SAY("obj ");
    digits(lane);
    *told++ = '.';
    digits(serial);
    *told++ = '\n';
}

static inline int is_object(value of) {
    return (of & 1) == 0 && of != 0;
}

static inline value *object(value of) {
    return (value *)(uintptr_t)of;
}

static inline uint64_t fields_of(value head) { return head & 255; }
static inline uint64_t domain_of(value head) { return head >> 8 & 63; }
static inline uint64_t lane_of(value head) { return head >> 16 & 15; }
static inline uint64_t serial_of(value head) { return (head & ~(1ull << 63)) >> 24; }

struct slot { uint64_t domain; value *word; };

static inline struct slot slot(void) {
    uint64_t domain = operand(domains), place = operand(width);
    return (struct slot){domain, &slots[width * domain + place]};
}

static inline int reads(uint64_t lane, uint64_t domain) {
    return holders[domain] == lane || holders[domain] == FROZEN;
}

/* Whether the lane may write the slot; else the refusal is said. */
static inline int writes(uint64_t lane, struct slot to) {
    if (holders[to.domain] == lane)
        return 1;
    if (holders[to.domain] == FROZEN)
        SAY("frozen\n");
    else
        SAY("foreign\n");
    return 0;
}

/* The object in the slot if the lane may read its fields; else the refusal is said. */
static inline value *touched(uint64_t lane, struct slot of) {
    if (!reads(lane, of.domain))
        SAY("foreign\n");
    else if (!is_object(*of.word))
        SAY("notobj\n");
    else if (!reads(lane, domain_of(*object(*of.word))))
        SAY("foreign\n");
    else
        return object(*of.word);
    return NULL;
}

static inline value *field_of(value *found, uint64_t field) {
    if (field < fields_of(*found))
        return &found[field + 1];
    SAY("range\n");
    return NULL;
}

static inline void store(uint64_t lane, struct slot of, uint64_t field, value what) {
    value *found = touched(lane, of);
    if (!found)
        return;
    if (holders[domain_of(*found)] == FROZEN) {
        SAY("frozen\n");
        return;
    }
    value *word = field_of(found, field);
    if (word) {
        *word = what;
        SAY("ok\n");
    }
}

static inline void say_plain(value of) {
    if (of == 0)
        SAY("nil\n");
    else
        SAY_NUMBER("num ", of / 2);
}

static inline void new_object(uint64_t lane) {
    expect("new");
    struct slot to = slot();
    uint64_t fields = operand(128);
    line_end();
    if (!writes(lane, to))
        return;
    value *made = GC_MALLOC(8 * (fields + 1));
    if (!made)
        exit(1);
    *made = 1ull << 63 | ++serials[lane] << 24 | lane << 16 | to.domain << 8 | fields;
    *to.word = (value)(uintptr_t)made;
    say_birth(lane, serials[lane]);
}

static inline void who(uint64_t lane) {
    expect("who");
    struct slot of = slot();
    line_end();
    if (!reads(lane, of.domain))
        SAY("foreign\n");
    else if (!is_object(*of.word))
        say_plain(*of.word);
    else if (!reads(lane, domain_of(*object(*of.word))))
        SAY("foreign\n");
    else
        say_birth(lane_of(*object(*of.word)), serial_of(*object(*of.word)));
}

static inline void len(uint64_t lane) {
    expect("len");
    struct slot of = slot();
    line_end();
    value *found = touched(lane, of);
    if (found)
        SAY_NUMBER("len ", fields_of(*found));
}

static inline void set(uint64_t lane) {
    expect("set");
    struct slot of = slot();
    uint64_t field = operand(127), number = operand(1ull << 63);
    line_end();
    store(lane, of, field, 2 * number + 1);
}

static inline void cut(uint64_t lane) {
    expect("cut");
    struct slot of = slot();
    uint64_t field = operand(127);
    line_end();
    store(lane, of, field, 0);
}

static inline void link_field(uint64_t lane) {
    expect("link");
    struct slot of = slot();
    uint64_t field = operand(127);
    struct slot from = slot();
    line_end();
    if (!reads(lane, from.domain))
        SAY("foreign\n");
    else
        store(lane, of, field, *from.word);
}

static inline void load(uint64_t lane) {
    expect("load");
    struct slot of = slot();
    uint64_t field = operand(127);
    struct slot to = slot();
    line_end();
    if (!reads(lane, of.domain)) {
        SAY("foreign\n");
        return;
    }
    value *found = writes(lane, to) ? touched(lane, of) : NULL, *word = found ? field_of(found, field) : NULL;
    if (!word)
        return;
    *to.word = *word;
    if (is_object(*to.word))
        SAY("ref\n");
    else
        say_plain(*to.word);
}

static inline void copy(uint64_t lane) {
    expect("copy");
    struct slot from = slot(), to = slot();
    line_end();
    if (!reads(lane, from.domain)) {
        SAY("foreign\n");
        return;
    }
    if (!writes(lane, to))
        return;
    *to.word = *from.word;
    SAY("ok\n");
}

static inline void clear(uint64_t lane) {
    expect("clear");
    struct slot of = slot();
    line_end();
    if (!writes(lane, of))
        return;
    *of.word = 0;
    SAY("ok\n");
}

static inline void same(uint64_t lane) {
    expect("same");
    struct slot one = slot(), other = slot();
    line_end();
    if (!reads(lane, one.domain) || !reads(lane, other.domain))
        SAY("foreign\n");
    else if (*one.word == *other.word)
        SAY("yes\n");
    else
        SAY("no\n");
}

/* Does the lane's operations, up to a line that is none. */
static void operations(uint64_t lane) {
    for (;;) {
        if (is("new "))
            new_object(lane);
        else if (is("who "))
            who(lane);
        else if (is("len "))
            len(lane);
        else if (is("set "))
            set(lane);
        else if (is("cut "))
            cut(lane);
        else if (is("link"))
            link_field(lane);
        else if (is("load"))
            load(lane);
        else if (is("copy"))
            copy(lane);
        else if (is("clea"))
            clear(lane);
        else if (is("same"))
            same(lane);
        else
            return;
    }
}

static void phase(uint64_t number) {
    expect("phase\n");
    SAY_NUMBER("phase ", number);
    while (is("turn")) {
        expect("turn");
        if (version == 3 && *at == ' ' && (at[1] == '+' || at[1] == '-')) {
            at += 2;
            number_below(16641);
        }
        while (*at == ' ')
            operand(1ull << 32);
        line_end();
    }
    for (uint64_t lane = 0; lane < lanes; lane++) {
        expect("lane");
        if (operand(lanes) != lane)
            fault();
        line_end();
        SAY_NUMBER("lane ", lane);
        operations(lane);
    }
    while (is("give") || (version >= 2 && is("free"))) {
        int gives = is("give");
        expect(gives ? "give" : "freeze");
        uint64_t domain = operand(domains), holder = gives ? operand(lanes) : FROZEN;
        line_end();
        holders[domain] = holder;
    }
    expect("end\n");
}

static uint64_t header(const char *word, uint64_t end_of_range) {
    expect(word);
    uint64_t number = operand(end_of_range);
    line_end();
    return number;
}

static void replay(void) {
    version = header("bc-trace", 4);
    lanes = header("lanes", LANES + 1);
    domains = header("domains", DOMAINS + 1);
    width = header("slots", SLOTS + 1);
    header("superpages", 4097);
    header("nursery", 17);
    header("buffer", 4097);
    header("frames", 1ull << 63);
    for (uint64_t domain = 0; domain < domains; domain++)
        holders[domain] = domain % lanes;
    for (uint64_t number = 1; is("phas"); number++)
        phase(number);
    expect("done\n");
    SAY("done\n");
    if (at != end)
        fault();
}

static void read_all(void) {
    char *room = malloc(LIMIT + 2);
    size_t size = 0;
    if (!room)
        exit(1);
    for (;;) {
        ssize_t got = read(0, room + size, LIMIT + 1 - size);
        if (got < 0)
            exit(4);
        if (got == 0)
            break;
        size += (size_t)got;
    }
    if (size > LIMIT)
        exit(3);
    room[size] = 0;
    start = at = room;
    end = room + size;
}

int main(void) {
    GC_INIT();
    read_all();
    replies = told = malloc(1 << 16);
    if (!replies)
        exit(1);
    replies_end = replies + (1 << 16);
    replay();
    for (const char *from = replies; from < told;) {
        ssize_t wrote = write(1, from, (size_t)(told - from));
        if (wrote <= 0)
            exit(5);
        from += wrote;
    }
    return 0;
}
