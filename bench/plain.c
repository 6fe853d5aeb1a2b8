// The yardstick of bench/run: plain C of the algorithms that the proved code uses, without its proofs.
// With no arguments it serves standard input as farmtable does; with 'NAME COUNT HOSTS SLOTS' it does what the crate bench does.
#include <stdbool.h>
#include <stdint.h>
#include <stdio.h>
#include <string.h>
#include <unistd.h>

enum { MAX_HOSTS = 256, MAX_SLOTS = 16384, MAX_HOST = 65535, MAX_RATE = 1000000, MAX_KEY = 4096, MAX_LINE = 8192 };
enum { BUFFER = 65536, LONGEST_TEXT = 84 };

struct roster {
    uint16_t hosts[MAX_HOSTS];
    uint32_t rates[MAX_HOSTS];
    size_t count;
};

enum kind { ADD, DROP, RATE };

struct event {
    enum kind kind;
    uint32_t host;
    uint32_t rate;
};

struct found {
    uint32_t answer;
    size_t slot;
    uint16_t host;
};

static bool rate_fits(uint32_t rate) { return 1 <= rate && rate <= MAX_RATE; }
static bool host_fits(uint32_t host) { return 1 <= host && host <= MAX_HOST; }
static bool slots_fit(uint32_t slots) { return 1 <= slots && slots <= MAX_SLOTS; }

// ---- quotas

static size_t lightest(const uint32_t *rates, const uint32_t *held, size_t n)
{
    size_t best = 0;
    for (size_t i = 0; i < n; i++)
        if (((uint64_t)held[i] + 1) * rates[best] < ((uint64_t)held[best] + 1) * rates[i])
            best = i;
    return best;
}

// The next slot goes where (slots held + 1) / rate is least, the first place on a tie.
static void quotas(const uint32_t *rates, size_t n, uint32_t slots, uint32_t *held)
{
    memset(held, 0, MAX_HOSTS * sizeof *held);
    if (n > MAX_HOSTS || slots > MAX_SLOTS)
        return;
    for (size_t i = 0; i < n; i++)
        if (!rate_fits(rates[i]))
            return;
    if (n == 0)
        return;
    for (uint32_t given = 0; given < slots; given++)
        held[lightest(rates, held, n)]++;
}

// ---- the roster

static bool roster_valid(const struct roster *r)
{
    if (r->count > MAX_HOSTS)
        return false;
    uint16_t last = 0;
    for (size_t i = 0; i < MAX_HOSTS; i++) {
        bool used = i < r->count;
        bool right = used ? last < r->hosts[i] && rate_fits(r->rates[i]) : r->hosts[i] == 0 && r->rates[i] == 0;
        if (!right)
            return false;
        last = r->hosts[i];
    }
    return true;
}

// The place of a number among rising ones, by halves.
static size_t place(const uint16_t *hosts, size_t n, uint16_t host)
{
    size_t lo = 0, hi = n;
    while (lo < hi) {
        size_t mid = lo + (hi - lo) / 2;
        if (hosts[mid] < host)
            lo = mid + 1;
        else
            hi = mid;
    }
    return lo;
}

static bool is_on(const struct roster *r, uint16_t host)
{
    size_t p = place(r->hosts, r->count, host);
    return p < r->count && r->hosts[p] == host;
}

static void add_host(struct roster *r, uint16_t host, uint32_t rate)
{
    size_t p = place(r->hosts, r->count, host);
    for (size_t i = r->count; i > p; i--) {
        r->hosts[i] = r->hosts[i - 1];
        r->rates[i] = r->rates[i - 1];
    }
    r->hosts[p] = host;
    r->rates[p] = rate;
    r->count++;
}

static void drop_host(struct roster *r, uint16_t host)
{
    size_t p = place(r->hosts, r->count, host);
    r->count--;
    for (size_t i = p; i < r->count; i++) {
        r->hosts[i] = r->hosts[i + 1];
        r->rates[i] = r->rates[i + 1];
    }
    r->hosts[r->count] = 0;
    r->rates[r->count] = 0;
}

// ---- the table

static uint32_t sizes_answer(const struct roster *r, uint32_t slots, size_t length)
{
    if (!slots_fit(slots) || length != slots)
        return 1;
    return roster_valid(r) ? 0 : 2;
}

// With no hosts nobody, owner 0, has a right to every slot.
static size_t owner_count(const struct roster *r) { return r->count == 0 ? 1 : r->count; }

static void share_list(const struct roster *r, uint32_t slots, uint32_t *shares)
{
    quotas(r->rates, r->count, slots, shares);
    if (r->count == 0)
        shares[0] = slots;
}

static size_t first_stranger(const uint16_t *hosts, size_t n, const uint16_t *table, size_t slots)
{
    for (size_t i = 0; i < slots; i++) {
        size_t lo = 0, hi = n;
        for (;;) {
            if (hi <= lo)
                return i;
            size_t mid = lo + (hi - lo) / 2;
            if (hosts[mid] == table[i])
                break;
            if (hosts[mid] < table[i])
                lo = mid + 1;
            else
                hi = mid;
        }
    }
    return slots;
}

// Where an owner that has room left stands, or the number of hosts.
static size_t seat(const uint16_t *hosts, size_t n, const uint32_t *room, uint16_t owner)
{
    size_t p = place(hosts, n, owner);
    return p < n && hosts[p] == owner && room[p] != 0 ? p : n;
}

// Counts the slots that would be freed. What is left of the room is what the hosts lack.
static uint32_t tally(const uint16_t *hosts, size_t n, uint32_t *room, const uint16_t *table, size_t slots)
{
    uint32_t freed = 0;
    for (size_t i = 0; i < slots; i++) {
        size_t p = seat(hosts, n, room, table[i]);
        if (p < n)
            room[p]--;
        else
            freed++;
    }
    return freed;
}

static void hand_over(const uint16_t *hosts, size_t n, uint32_t *room, uint32_t *lacks, uint16_t *table, size_t slots)
{
    size_t next = 0;
    for (size_t i = 0; i < slots; i++) {
        size_t p = seat(hosts, n, room, table[i]);
        if (p < n) {
            room[p]--;
            continue;
        }
        while (next < n && lacks[next] == 0)
            next++;
        table[i] = hosts[next];
        lacks[next]--;
    }
}

static uint32_t check(const struct roster *r, uint32_t slots, const uint16_t *table, size_t length)
{
    uint32_t answer = sizes_answer(r, slots, length);
    if (answer != 0)
        return answer;
    size_t n = owner_count(r);
    if (first_stranger(r->hosts, n, table, length) < length)
        return 3;
    uint32_t room[MAX_HOSTS];
    share_list(r, slots, room);
    return tally(r->hosts, n, room, table, length) == 0 ? 0 : 3;
}

static uint32_t rearrange(const struct roster *r, uint32_t slots, uint16_t *table, size_t length, uint32_t *moved)
{
    *moved = 0;
    uint32_t answer = sizes_answer(r, slots, length);
    if (answer != 0)
        return answer;
    size_t n = owner_count(r);
    uint32_t room[MAX_HOSTS], lacks[MAX_HOSTS];
    share_list(r, slots, room);
    memcpy(lacks, room, sizeof lacks);
    *moved = tally(r->hosts, n, lacks, table, length);
    hand_over(r->hosts, n, room, lacks, table, length);
    return 0;
}

static uint32_t layout(const struct roster *r, uint32_t slots, uint16_t *table, size_t length)
{
    uint32_t answer = sizes_answer(r, slots, length);
    if (answer != 0)
        return answer;
    memset(table, 0, length * sizeof *table);
    uint32_t moved;
    return rearrange(r, slots, table, length, &moved);
}

// ---- events

static uint32_t event_answer(const struct roster *r, const struct event *e)
{
    if (!host_fits(e->host))
        return 4;
    if (e->kind != DROP && !rate_fits(e->rate))
        return 5;
    if (e->kind != ADD)
        return is_on(r, (uint16_t)e->host) ? 0 : 6;
    if (is_on(r, (uint16_t)e->host))
        return 7;
    return r->count == MAX_HOSTS ? 8 : 0;
}

static void change_roster(struct roster *r, const struct event *e)
{
    uint16_t host = (uint16_t)e->host;
    if (e->kind == ADD)
        add_host(r, host, e->rate);
    else if (e->kind == DROP)
        drop_host(r, host);
    else
        r->rates[place(r->hosts, r->count, host)] = e->rate;
}

static uint32_t apply(struct roster *r, uint32_t slots, const struct event *e, uint16_t *table, size_t length, uint32_t *moved)
{
    *moved = 0;
    uint32_t answer = check(r, slots, table, length);
    if (answer == 0)
        answer = event_answer(r, e);
    if (answer != 0)
        return answer;
    struct roster next = *r;
    change_roster(&next, e);
    rearrange(&next, slots, table, length, moved);
    *r = next;
    return 0;
}

// ---- finds

static uint32_t hash(const uint8_t *key, size_t length)
{
    uint32_t h = 2166136261u;
    for (size_t i = 0; i < length; i++)
        h = (h ^ key[i]) * 16777619u;
    return h;
}

static struct found find(const uint16_t *table, size_t slots, const uint8_t *key, size_t length)
{
    struct found f = { 0, 0, 0 };
    if (slots < 1 || slots > MAX_SLOTS) {
        f.answer = 1;
        return f;
    }
    if (length > MAX_KEY) {
        f.answer = 9;
        return f;
    }
    size_t slot = hash(key, length) % slots;
    if (table[slot] == 0) {
        f.answer = 10;
        return f;
    }
    f.slot = slot;
    f.host = table[slot];
    return f;
}

// ---- the program's lines

enum due { DUE_SLOTS, DUE_OPENING, DUE_HOST, DUE_RATE, DUE_KEY };

struct stream {
    enum due due;
    uint32_t slots;
    uint64_t lines;
    bool stopped;
    struct event event;
    struct roster roster;
    uint16_t owners[MAX_SLOTS];
    uint8_t out[BUFFER];
    size_t printed;
};

static void put_line(struct stream *s, const char *name, size_t length, uint64_t value)
{
    uint8_t digits[20];
    size_t n = 0;
    memcpy(s->out + s->printed, name, length);
    s->printed += length;
    do {
        digits[n++] = (uint8_t)('0' + value % 10);
        value /= 10;
    } while (value != 0);
    while (n > 0)
        s->out[s->printed++] = digits[--n];
    s->out[s->printed++] = '\n';
}

static void say_moved(struct stream *s, uint32_t answer, uint32_t moved)
{
    put_line(s, "answer=", 7, answer);
    put_line(s, "moved=", 6, moved);
}

static void say_owner(struct stream *s, const struct found *f)
{
    put_line(s, "answer=", 7, f->answer);
    put_line(s, "slot=", 5, f->slot);
    put_line(s, "host=", 5, f->host);
}

static void say_wrong(struct stream *s, uint64_t line)
{
    put_line(s, "answer=", 7, 13);
    put_line(s, "line=", 5, line);
    s->stopped = true;
}

static bool starts_with(const uint8_t *line, size_t length, const char *name, size_t n)
{
    return length >= n && memcmp(line, name, n) == 0;
}

static bool is_line(const uint8_t *line, size_t length, const char *text, size_t n)
{
    return length == n && memcmp(line, text, n) == 0;
}

static bool number_after(const uint8_t *line, size_t length, const char *name, size_t n, uint32_t *value)
{
    if (!starts_with(line, length, name, n))
        return false;
    line += n;
    length -= n;
    if (length < 1 || length > 9 || (length > 1 && line[0] == '0'))
        return false;
    *value = 0;
    for (size_t i = 0; i < length; i++) {
        if (line[i] < '0' || line[i] > '9')
            return false;
        *value = *value * 10 + (uint32_t)(line[i] - '0');
    }
    return true;
}

// The first line of a record.
static bool take_opening(struct stream *s, const uint8_t *line, size_t length)
{
    if (starts_with(line, length, "#", 1))
        return true;
    s->due = DUE_HOST;
    if (is_line(line, length, "op=add", 6))
        s->event.kind = ADD;
    else if (is_line(line, length, "op=drop", 7))
        s->event.kind = DROP;
    else if (is_line(line, length, "op=rate", 7))
        s->event.kind = RATE;
    else if (is_line(line, length, "op=find", 7))
        s->due = DUE_KEY;
    else
        return false;
    return true;
}

static bool take_slots(struct stream *s, const uint8_t *line, size_t length)
{
    if (!number_after(line, length, "slots=", 6, &s->slots))
        return false;
    s->due = DUE_OPENING;
    if (!slots_fit(s->slots)) {
        say_moved(s, 1, 0);
        s->stopped = true;
    }
    return true;
}

static void take_event(struct stream *s)
{
    uint32_t moved;
    uint32_t answer = apply(&s->roster, s->slots, &s->event, s->owners, s->slots, &moved);
    say_moved(s, answer, moved);
    s->due = DUE_OPENING;
}

static bool take_host(struct stream *s, const uint8_t *line, size_t length)
{
    if (!number_after(line, length, "host=", 5, &s->event.host))
        return false;
    s->due = DUE_RATE;
    if (s->event.kind == DROP)
        take_event(s);
    return true;
}

static bool take_rate(struct stream *s, const uint8_t *line, size_t length)
{
    if (!number_after(line, length, "rate=", 5, &s->event.rate))
        return false;
    take_event(s);
    return true;
}

static bool take_key(struct stream *s, const uint8_t *line, size_t length)
{
    if (!starts_with(line, length, "key=", 4))
        return false;
    struct found f = find(s->owners, s->slots, line + 4, length - 4);
    say_owner(s, &f);
    s->due = DUE_OPENING;
    return true;
}

static void take_line(struct stream *s, const uint8_t *line, size_t length)
{
    bool good = length <= MAX_LINE;
    s->lines++;
    if (good)
        switch (s->due) {
        case DUE_SLOTS: good = take_slots(s, line, length); break;
        case DUE_OPENING: good = take_opening(s, line, length); break;
        case DUE_HOST: good = take_host(s, line, length); break;
        case DUE_RATE: good = take_rate(s, line, length); break;
        case DUE_KEY: good = take_key(s, line, length); break;
        }
    if (!good)
        say_wrong(s, s->lines);
}

// Takes every whole line as far as the output has room, and answers the place of the next.
static size_t run(struct stream *s, const uint8_t *input, size_t size)
{
    size_t next = 0;
    while (!s->stopped && next < size && s->printed <= BUFFER - LONGEST_TEXT) {
        size_t end = next;
        while (end < size && input[end] != '\n')
            end++;
        if (end == size && size - next <= MAX_LINE)
            break;
        take_line(s, input + next, end - next);
        next = end < size ? end + 1 : size;
    }
    return next;
}

static bool write_out(struct stream *s)
{
    for (size_t done = 0; done < s->printed;) {
        ssize_t n = write(STDOUT_FILENO, s->out + done, s->printed - done);
        if (n <= 0)
            return false;
        done += (size_t)n;
    }
    s->printed = 0;
    return true;
}

static void serve(void)
{
    static struct stream s;
    static uint8_t buf[BUFFER];
    size_t held = 0;
    while (!s.stopped) {
        size_t next = run(&s, buf, held);
        if (!write_out(&s) || s.stopped)
            return;
        held -= next;
        memmove(buf, buf + next, held);
        if (next != 0)
            continue;
        ssize_t got = read(STDIN_FILENO, buf + held, BUFFER - held);
        if (got <= 0)
            break;
        held += (size_t)got;
    }
    if (s.due != DUE_OPENING || held != 0)
        say_wrong(&s, s.lines + 1);
    write_out(&s);
}

// ---- workloads that read no lines; each changes a rate every turn and sums up what came out

static uint32_t next_seed(uint32_t seed) { return (uint32_t)((uint64_t)seed * 48271 % 2147483647); }
static uint32_t rate_from(uint32_t seed) { return seed % MAX_RATE + 1; }
static uint32_t new_rate(uint32_t turn, uint32_t sum) { return (uint32_t)(((uint64_t)turn * 7919 + sum) % MAX_RATE + 1); }
static uint32_t mixed(uint32_t sum, uint32_t value) { return (uint32_t)(((uint64_t)sum * 31 + value) % 4294967291); }
static uint16_t host_at(uint32_t i) { return (uint16_t)(i * 200 + 7); }

static void fill(struct roster *r, uint32_t hosts)
{
    uint32_t seed = 1;
    memset(r, 0, sizeof *r);
    for (uint32_t i = 0; i < hosts; i++) {
        seed = next_seed(seed);
        add_host(r, host_at(i), rate_from(seed));
    }
}

static uint32_t mixed_owners(uint32_t sum, const uint16_t *table, size_t slots)
{
    for (size_t i = 0; i < slots; i++)
        sum = mixed(sum, table[i]);
    return sum;
}

static uint32_t time_quotas(struct roster *r, uint32_t turns, uint32_t slots)
{
    uint32_t sum = 0, held[MAX_HOSTS];
    for (uint32_t turn = 0; turn < turns; turn++) {
        r->rates[turn % r->count] = new_rate(turn, sum);
        quotas(r->rates, r->count, slots, held);
        for (size_t i = 0; i < MAX_HOSTS; i++)
            sum = mixed(sum, held[i]);
    }
    return sum;
}

static uint32_t time_layouts(struct roster *r, uint32_t turns, uint32_t slots, uint16_t *table)
{
    uint32_t sum = 0;
    for (uint32_t turn = 0; turn < turns; turn++) {
        r->rates[turn % r->count] = new_rate(turn, sum);
        sum = mixed(sum, layout(r, slots, table, slots));
        sum = mixed_owners(sum, table, slots);
    }
    return sum;
}

static uint32_t time_events(struct roster *r, uint32_t turns, uint32_t slots, uint16_t *table)
{
    static const enum kind kinds[] = { DROP, ADD, RATE };
    uint32_t hosts = (uint32_t)r->count;
    uint32_t sum = layout(r, slots, table, slots);
    for (uint32_t turn = 0; turn < turns; turn++) {
        struct event e = { kinds[turn % 3], host_at(turn / 3 % hosts), new_rate(turn, sum) };
        uint32_t moved;
        sum = mixed(sum, apply(r, slots, &e, table, slots, &moved));
        sum = mixed(sum, moved);
    }
    return mixed_owners(sum, table, slots);
}

static bool number_in(const char *text, uint32_t most, uint32_t *value)
{
    return number_after((const uint8_t *)text, strlen(text), "", 0, value) && 1 <= *value && *value <= most;
}

static bool time_task(char **words)
{
    static struct roster r;
    static uint16_t table[MAX_SLOTS];
    uint32_t turns, hosts, slots, sum;
    if (!number_in(words[1], 999999999, &turns) || !number_in(words[2], MAX_HOSTS, &hosts) || !number_in(words[3], MAX_SLOTS, &slots))
        return false;
    memset(table, 0, sizeof table);
    fill(&r, hosts);
    if (strcmp(words[0], "quotas") == 0)
        sum = time_quotas(&r, turns, slots);
    else if (strcmp(words[0], "layouts") == 0)
        sum = time_layouts(&r, turns, slots, table);
    else if (strcmp(words[0], "events") == 0)
        sum = time_events(&r, turns, slots, table);
    else
        return false;
    printf("%u\n", sum);
    return true;
}

int main(int argc, char **argv)
{
    if (argc == 1)
        serve();
    for (int i = 1; i < argc; i += 4)
        if (i + 4 > argc || !time_task(argv + i))
            return 1;
    return 0;
}
