/* Makes the library calls that its input lists, and prints each reply and the lent memory after it. */
#include "farm.h"
#include "line.h"

#include <inttypes.h>
#include <stdio.h>
#include <stdlib.h>
#include <string.h>

enum { TABLE_ROOM = 16500, LIST_ROOM = 300 };

static struct roster roster;
static uint16_t owners[TABLE_ROOM];
static uint64_t owners_used;
static struct record list[LIST_ROOM];
static uint64_t list_used;

/* what is left of a line */
struct words {
    const unsigned char *at;
    const unsigned char *end;
};

static bool take_word(struct words *words, const char *word)
{
    size_t length = strlen(word);
    size_t left = (size_t)(words->end - words->at);
    if (left < length || memcmp(words->at, word, length) != 0)
        return false;
    if (left > length && words->at[length] != ' ')
        return false;
    words->at += left > length ? length + 1 : length;
    return true;
}

static uint64_t take_long(struct words *words)
{
    uint64_t number = 0;
    for (; words->at < words->end && *words->at != ' '; words->at++)
        number = number * 10 + (uint64_t)(*words->at - '0');
    if (words->at < words->end)
        words->at++;
    return number;
}

static uint32_t take(struct words *words)
{
    return (uint32_t)take_long(words);
}

static struct table table_in_use(void)
{
    return (struct table){owners, owners_used};
}

static void set_host(struct words *words)
{
    size_t place = take(words);
    roster.number[place] = (uint16_t)take(words);
    roster.rate[place] = take(words);
}

static void set_count(struct words *words)
{
    roster.count = take_long(words);
}

static void set_clear(struct words *words)
{
    (void)words;
    memset(&roster, 0, sizeof roster);
}

static void set_length(struct words *words)
{
    owners_used = take(words);
}

static void set_fill(struct words *words)
{
    size_t from = take(words), to = take(words);
    uint16_t owner = (uint16_t)take(words);
    for (size_t slot = from; slot < to; slot++)
        owners[slot] = owner;
}

static void set_records(struct words *words)
{
    list_used = take(words);
}

static void set_stale(struct words *words)
{
    struct record *record = &list[take(words)];
    record->number = (uint16_t)take(words);
    record->rate = take(words);
    record->quota = take(words);
}

static void call_check(struct words *words)
{
    uint32_t slot;
    enum answer answer = check_table(&roster, table_in_use(), take(words), &slot);
    printf("check %d %" PRIu32 "\n", (int)answer, slot);
}

static void call_layout(struct words *words)
{
    printf("layout %d\n", (int)layout(&roster, table_in_use(), take(words)));
}

static struct event take_event(struct words *words, enum kind kind)
{
    struct event event = {kind, take(words), 0};
    if (kind != DROP)
        event.rate = take(words);
    return event;
}

static void call_event(struct words *words, enum kind kind)
{
    uint32_t moved, slots = take(words);
    enum answer answer = apply(&roster, table_in_use(), slots, take_event(words, kind), &moved);
    printf("event %d %" PRIu32 "\n", (int)answer, moved);
}

static void call_add(struct words *words)
{
    call_event(words, ADD);
}

static void call_drop(struct words *words)
{
    call_event(words, DROP);
}

static void call_rate(struct words *words)
{
    call_event(words, RATE);
}

static void call_ask(struct words *words)
{
    uint32_t slots = take(words);
    enum kind kind = take_word(words, "add") ? ADD : take_word(words, "drop") ? DROP : RATE;
    if (kind == RATE)
        take_word(words, "rate");
    struct event event = take_event(words, kind);
    int32_t change;
    enum answer answer = forecast(&roster, slots, event, take(words), &change);
    printf("ask %d %" PRId32 "\n", (int)answer, change);
}

static void call_report(struct words *words)
{
    printf("report %d\n", (int)report(&roster, take(words), list, list_used));
}

static void call_load(struct words *words)
{
    bool yes;
    uint32_t slots = take(words);
    enum answer answer = carries(&roster, slots, take(words), &yes);
    printf("load %d %s\n", (int)answer, yes ? "yes" : "no");
}

static void call_find(struct words *words)
{
    struct found found;
    uint64_t stated = take_long(words);
    enum answer answer = find(table_in_use(), stated, words->at, (size_t)(words->end - words->at), &found);
    printf("find %d %" PRIu32 " %d\n", (int)answer, found.slot, (int)found.host);
}

static void print_roster(void)
{
    printf("roster %" PRIu64, roster.count);
    for (int place = 0; place < MOST_HOSTS; place++)
        if (roster.number[place] != 0 || roster.rate[place] != 0)
            printf(" %d:%d:%" PRIu32, place, (int)roster.number[place], roster.rate[place]);
    printf("\n");
}

static void print_table(void)
{
    printf("table");
    for (size_t from = 0, to; from < owners_used; from = to) {
        for (to = from; to < owners_used && owners[to] == owners[from];)
            to++;
        printf(" %zu*%d", to - from, (int)owners[from]);
    }
    printf("\n");
}

static void print_list(void)
{
    printf("list");
    for (size_t place = 0; place < list_used; place++)
        printf(" %d:%" PRIu32 ":%" PRIu32, (int)list[place].number, list[place].rate, list[place].quota);
    printf("\n");
}

struct command {
    const char *word;
    void (*run)(struct words *words);
    bool prints;
};

static const struct command commands[] = {
    {"host", set_host, false},       {"count", set_count, false},   {"clear", set_clear, false},
    {"length", set_length, false},   {"fill", set_fill, false},     {"records", set_records, false},
    {"stale", set_stale, false},     {"check", call_check, true},   {"layout", call_layout, true},
    {"add", call_add, true},         {"drop", call_drop, true},     {"rate", call_rate, true},
    {"ask", call_ask, true},         {"report", call_report, true}, {"load", call_load, true},
    {"find", call_find, true},
};

static const struct command *command_of(struct words *words)
{
    for (size_t at = 0; at < sizeof commands / sizeof commands[0]; at++)
        if (take_word(words, commands[at].word))
            return &commands[at];
    return NULL;
}

static void do_line(struct words *words)
{
    const struct command *command = command_of(words);
    if (command == NULL)
        return;
    command->run(words);
    if (command->prints) {
        print_roster();
        print_table();
        print_list();
    }
}

int main(void)
{
    struct line line = {0};
    for (read_line(&line); line.whole; read_line(&line)) {
        if (line.length == 0)
            continue;
        struct words words = {line.bytes, line.bytes + line.length};
        do_line(&words);
    }
    free(line.bytes);
    return 0;
}
