#include "farm.h"

#include <stdlib.h>
#include <string.h>

struct claim {
    uint64_t k;
    uint64_t rate;
    uint16_t host;
    size_t place;
};

/* what an event moves: the freed slots in rising order, and who takes each, a host as often as it lacks slots */
struct move {
    uint32_t freed[MOST_SLOTS];
    size_t freed_count;
    uint16_t receiver[MOST_SLOTS];
};

static bool slots_in_range(uint64_t slots)
{
    return 1 <= slots && slots <= MOST_SLOTS;
}

static bool number_in_range(uint32_t host)
{
    return 1 <= host && host <= MOST_NUMBER;
}

static bool rate_in_range(uint32_t rate)
{
    return 1 <= rate && rate <= MOST_RATE;
}

static bool place_holds(const struct roster *roster, size_t place)
{
    if (place >= roster->count)
        return roster->number[place] == 0 && roster->rate[place] == 0;
    bool rises = place == 0 || roster->number[place - 1] < roster->number[place];
    return rises && number_in_range(roster->number[place]) && rate_in_range(roster->rate[place]);
}

static bool roster_holds(const struct roster *roster)
{
    if (roster->count > MOST_HOSTS)
        return false;
    for (size_t place = 0; place < MOST_HOSTS; place++)
        if (!place_holds(roster, place))
            return false;
    return true;
}

/* the host's place, or the count if it is not on the roster */
static size_t place_of(const struct roster *roster, uint32_t host)
{
    size_t place = 0;
    while (place < roster->count && roster->number[place] != host)
        place++;
    return place;
}

static bool is_on(const struct roster *roster, uint32_t host)
{
    return place_of(roster, host) < roster->count;
}

static uint64_t sum_of_rates(const struct roster *roster)
{
    uint64_t sum = 0;
    for (size_t place = 0; place < roster->count; place++)
        sum += roster->rate[place];
    return sum;
}

static int by_weight(const void *left, const void *right)
{
    const struct claim *a = left, *b = right;
    uint64_t one = a->k * b->rate, other = b->k * a->rate;
    if (one != other)
        return one < other ? -1 : 1;
    if (a->host != b->host)
        return a->host < b->host ? -1 : 1;
    return 0;
}

/* lists for each host one claim more than the load bound lets it win, so none of the first S is left out */
static size_t list_claims(const struct roster *roster, uint32_t slots, struct claim *claims)
{
    size_t listed = 0;
    uint64_t sum = sum_of_rates(roster);
    for (size_t place = 0; place < roster->count; place++) {
        uint64_t rate = roster->rate[place];
        uint64_t last = rate * (slots + roster->count - 1) / sum + 1;
        for (uint64_t k = 1; k <= last && k <= slots; k++)
            claims[listed++] = (struct claim){k, rate, roster->number[place], place};
    }
    return listed;
}

static void work_out_quotas(const struct roster *roster, uint32_t slots, uint32_t quota[MOST_HOSTS])
{
    static struct claim claims[MOST_SLOTS + 2 * MOST_HOSTS];
    size_t listed = list_claims(roster, slots, claims);
    qsort(claims, listed, sizeof claims[0], by_weight);
    memset(quota, 0, MOST_HOSTS * sizeof quota[0]);
    for (size_t rank = 0; rank < listed && rank < slots; rank++)
        quota[claims[rank].place]++;
}

/* 1 and 2, which come before all else */
static enum answer check_sizes(const struct roster *roster, uint32_t slots)
{
    if (!slots_in_range(slots))
        return WRONG_SLOTS;
    return roster_holds(roster) ? DONE : BAD_ROSTER;
}

static enum answer check_lent(const struct roster *roster, struct table table, uint32_t slots)
{
    return table.length == slots ? check_sizes(roster, slots) : WRONG_SLOTS;
}

/* with no hosts only 0 is known; with hosts 0 is a stranger */
static bool is_known(const struct roster *roster, uint16_t owner)
{
    return roster->count == 0 ? owner == 0 : is_on(roster, owner);
}

static bool counts_agree(const struct roster *roster, struct table table)
{
    uint32_t quota[MOST_HOSTS], held[MOST_HOSTS] = {0};
    work_out_quotas(roster, (uint32_t)table.length, quota);
    for (size_t slot = 0; slot < table.length; slot++)
        held[place_of(roster, table.owner[slot])]++;
    return memcmp(quota, held, sizeof held) == 0;
}

enum answer check_table(const struct roster *roster, struct table table, uint32_t slots, uint32_t *slot)
{
    *slot = 0;
    enum answer answer = check_lent(roster, table, slots);
    if (answer != DONE)
        return answer;
    uint32_t at = 0;
    while (at < slots && is_known(roster, table.owner[at]))
        at++;
    if (at == slots && (roster->count == 0 || counts_agree(roster, table)))
        return DONE;
    *slot = at;
    return NOT_BELONGING;
}

enum answer layout(const struct roster *roster, struct table table, uint32_t slots)
{
    enum answer answer = check_lent(roster, table, slots);
    if (answer != DONE)
        return answer;
    uint32_t quota[MOST_HOSTS];
    work_out_quotas(roster, slots, quota);
    memset(table.owner, 0, slots * sizeof table.owner[0]);
    uint32_t slot = 0;
    for (size_t place = 0; place < roster->count; place++)
        for (uint32_t given = 0; given < quota[place]; given++)
            table.owner[slot++] = roster->number[place];
    return DONE;
}

/* 4 to 8, of an event on a roster that breaks no rule */
static enum answer check_event(const struct roster *roster, struct event event)
{
    if (!number_in_range(event.host))
        return BAD_NUMBER;
    if (event.kind != DROP && !rate_in_range(event.rate))
        return BAD_RATE;
    bool present = is_on(roster, event.host);
    if (event.kind != ADD)
        return present ? DONE : HOST_ABSENT;
    if (present)
        return HOST_PRESENT;
    return roster->count == MOST_HOSTS ? ROSTER_FULL : DONE;
}

static void append(struct roster *roster, uint32_t host, uint32_t rate)
{
    roster->number[roster->count] = (uint16_t)host;
    roster->rate[roster->count] = rate;
    roster->count++;
}

/* builds the roster anew: the hosts below the event's, the event's unless dropped, the hosts above */
static struct roster roster_after(const struct roster *roster, struct event event)
{
    struct roster after = {0};
    size_t place = 0;
    for (; place < roster->count && roster->number[place] < event.host; place++)
        append(&after, roster->number[place], roster->rate[place]);
    if (event.kind != DROP)
        append(&after, event.host, event.rate);
    for (; place < roster->count; place++)
        if (roster->number[place] != event.host)
            append(&after, roster->number[place], roster->rate[place]);
    return after;
}

static enum answer change_roster(const struct roster *roster, struct event event, struct roster *after)
{
    enum answer answer = check_event(roster, event);
    if (answer == DONE)
        *after = roster_after(roster, event);
    return answer;
}

/* nobody, owner 0, has quota 0, so unowned slots are freed like those of a dropped host */
static void list_freed(struct table table, uint32_t held[], const uint32_t wanted[], struct move *move)
{
    uint32_t falling[MOST_SLOTS];
    size_t freed = 0;
    for (size_t slot = table.length; slot-- > 0;) {
        uint16_t owner = table.owner[slot];
        if (held[owner] > wanted[owner]) {
            held[owner]--;
            falling[freed++] = (uint32_t)slot;
        }
    }
    move->freed_count = freed;
    for (size_t at = 0; at < freed; at++)
        move->freed[at] = falling[freed - 1 - at];
}

static void list_receivers(const struct roster *after, const uint32_t held[], const uint32_t wanted[], struct move *move)
{
    size_t receivers = 0;
    for (size_t place = 0; place < after->count; place++) {
        uint16_t host = after->number[place];
        for (uint32_t has = held[host]; has < wanted[host]; has++)
            move->receiver[receivers++] = host;
    }
}

static void plan(const struct roster *after, struct table table, struct move *move)
{
    static uint32_t held[MOST_NUMBER + 1], wanted[MOST_NUMBER + 1];
    uint32_t quota[MOST_HOSTS];
    memset(held, 0, sizeof held);
    memset(wanted, 0, sizeof wanted);
    for (size_t slot = 0; slot < table.length; slot++)
        held[table.owner[slot]]++;
    work_out_quotas(after, (uint32_t)table.length, quota);
    for (size_t place = 0; place < after->count; place++)
        wanted[after->number[place]] = quota[place];
    list_freed(table, held, wanted, move);
    list_receivers(after, held, wanted, move);
}

enum answer apply(struct roster *roster, struct table table, uint32_t slots, struct event event, uint32_t *moved)
{
    static struct move move;
    struct roster after = {0};
    uint32_t slot;
    *moved = 0;
    enum answer answer = check_table(roster, table, slots, &slot);
    if (answer == DONE)
        answer = change_roster(roster, event, &after);
    if (answer != DONE)
        return answer;
    plan(&after, table, &move);
    for (size_t at = 0; at < move.freed_count; at++)
        table.owner[move.freed[at]] = after.count > 0 ? move.receiver[at] : 0;
    *roster = after;
    *moved = (uint32_t)move.freed_count;
    return DONE;
}

static uint32_t quota_of(const struct roster *roster, uint32_t slots, uint32_t host)
{
    uint32_t quota[MOST_HOSTS];
    work_out_quotas(roster, slots, quota);
    return is_on(roster, host) ? quota[place_of(roster, host)] : 0;
}

enum answer forecast(const struct roster *roster, uint32_t slots, struct event event, uint32_t asked, int32_t *change)
{
    struct roster after = {0};
    *change = 0;
    enum answer answer = check_sizes(roster, slots);
    if (answer == DONE && !number_in_range(asked))
        answer = BAD_NUMBER;
    if (answer == DONE)
        answer = change_roster(roster, event, &after);
    if (answer == DONE)
        *change = (int32_t)quota_of(&after, slots, asked) - (int32_t)quota_of(roster, slots, asked);
    return answer;
}

enum answer report(const struct roster *roster, uint32_t slots, struct record *list, uint64_t length)
{
    enum answer answer = check_sizes(roster, slots);
    if (answer != DONE)
        return answer;
    if (length != roster->count)
        return WRONG_LIST;
    uint32_t quota[MOST_HOSTS];
    work_out_quotas(roster, slots, quota);
    for (size_t place = 0; place < roster->count; place++)
        list[place] = (struct record){roster->number[place], roster->rate[place], quota[place]};
    return DONE;
}

/* fewer slots are never harder to keep up with, so the most each host can take, added up, settles the question */
enum answer carries(const struct roster *roster, uint32_t slots, uint32_t load, bool *yes)
{
    *yes = false;
    enum answer answer = check_sizes(roster, slots);
    if (answer != DONE)
        return answer;
    if (roster->count == 0)
        return NO_OWNER;
    if (load < 1 || load > MOST_LOAD)
        return BAD_LOAD;
    uint64_t sum = sum_of_rates(roster), taken = 0;
    for (size_t place = 0; place < roster->count; place++) {
        uint64_t most = 0;
        while (most < slots && load * (most + 1) * sum <= (uint64_t)1000 * roster->rate[place] * slots)
            most++;
        taken += most;
    }
    *yes = taken >= slots;
    return DONE;
}

static uint32_t fnv1a(const unsigned char *key, size_t length)
{
    uint32_t hash = 2166136261u;
    for (size_t at = 0; at < length; at++)
        hash = (hash ^ key[at]) * 16777619u;
    return hash;
}

enum answer find(struct table table, uint64_t stated, const unsigned char *key, size_t length, struct found *found)
{
    *found = (struct found){0, 0};
    if (!slots_in_range(stated) || stated != table.length)
        return WRONG_SLOTS;
    if (length > MOST_KEY)
        return LONG_KEY;
    uint32_t slot = fnv1a(key, length) % (uint32_t)stated;
    if (table.owner[slot] == 0)
        return NO_OWNER;
    *found = (struct found){slot, table.owner[slot]};
    return DONE;
}
