/* The program of document 01, The program's lines, a second time. */
#include "farm.h"
#include "line.h"

#include <inttypes.h>
#include <stdio.h>
#include <stdlib.h>
#include <string.h>

enum { MOST_LINE = 8192, MOST_DIGITS = 9 };

struct farm {
    struct roster roster;
    uint16_t owner[MOST_SLOTS];
    uint32_t slots;
};

/* the line last read and its number; a missing line has the number it would have had */
struct input {
    struct line line;
    uint64_t number;
};

static void next_line(struct input *input)
{
    read_line(&input->line);
    input->number++;
}

static bool at_end(const struct input *input)
{
    return !input->line.whole && input->line.length == 0;
}

static bool well_ended(const struct input *input)
{
    return input->line.whole && input->line.length <= MOST_LINE;
}

static bool begins(const struct input *input, const char *key)
{
    size_t length = strlen(key);
    return well_ended(input) && input->line.length >= length && memcmp(input->line.bytes, key, length) == 0;
}

static bool is(const struct input *input, const char *text)
{
    return begins(input, text) && input->line.length == strlen(text);
}

/* 1 to 9 digits and no leading zero, except 0 itself */
static bool take_number(const struct input *input, const char *key, uint32_t *number)
{
    if (!begins(input, key))
        return false;
    const unsigned char *digit = input->line.bytes + strlen(key);
    size_t digits = input->line.length - strlen(key);
    if (digits < 1 || digits > MOST_DIGITS || (digits > 1 && digit[0] == '0'))
        return false;
    *number = 0;
    for (size_t at = 0; at < digits; at++) {
        if (digit[at] < '0' || digit[at] > '9')
            return false;
        *number = *number * 10 + (digit[at] - '0');
    }
    return true;
}

static bool next_number(struct input *input, const char *key, uint32_t *number)
{
    next_line(input);
    return take_number(input, key, number);
}

static struct table table_of(struct farm *farm)
{
    return (struct table){farm->owner, farm->slots};
}

/* the lines after op=; false says that the line last read is malformed */
static bool do_change(struct farm *farm, struct input *input, enum kind kind)
{
    struct event event = {kind, 0, 0};
    if (!next_number(input, "host=", &event.host))
        return false;
    if (kind != DROP && !next_number(input, "rate=", &event.rate))
        return false;
    uint32_t moved;
    enum answer answer = apply(&farm->roster, table_of(farm), farm->slots, event, &moved);
    printf("answer=%d\nmoved=%" PRIu32 "\n", (int)answer, moved);
    return true;
}

static bool do_find(struct farm *farm, struct input *input)
{
    const char *key = "key=";
    next_line(input);
    if (!begins(input, key))
        return false;
    struct found found;
    size_t skipped = strlen(key);
    enum answer answer =
        find(table_of(farm), farm->slots, input->line.bytes + skipped, input->line.length - skipped, &found);
    printf("answer=%d\nslot=%" PRIu32 "\nhost=%d\n", (int)answer, found.slot, (int)found.host);
    return true;
}

static bool do_record(struct farm *farm, struct input *input)
{
    if (begins(input, "#"))
        return true;
    if (is(input, "op=add"))
        return do_change(farm, input, ADD);
    if (is(input, "op=drop"))
        return do_change(farm, input, DROP);
    if (is(input, "op=rate"))
        return do_change(farm, input, RATE);
    return is(input, "op=find") && do_find(farm, input);
}

static bool run(struct farm *farm, struct input *input)
{
    if (!next_number(input, "slots=", &farm->slots))
        return false;
    if (farm->slots < 1 || farm->slots > MOST_SLOTS) {
        printf("answer=%d\nmoved=0\n", (int)WRONG_SLOTS);
        return true;
    }
    for (next_line(input); !at_end(input); next_line(input))
        if (!do_record(farm, input))
            return false;
    return true;
}

int main(void)
{
    static struct farm farm;
    struct input input = {0};
    if (!run(&farm, &input))
        printf("answer=%d\nline=%" PRIu64 "\n", (int)MALFORMED, input.number);
    free(input.line.bytes);
    return 0;
}
