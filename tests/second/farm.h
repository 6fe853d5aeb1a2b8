/* The rules of document 01 in C, written apart from the proved program so that the two can be compared. */
#ifndef FARM_H
#define FARM_H

#include <stdbool.h>
#include <stddef.h>
#include <stdint.h>

/* document 01, Sizes */
enum {
    MOST_SLOTS = 16384,
    MOST_HOSTS = 256,
    MOST_NUMBER = 65535,
    MOST_RATE = 1000000,
    MOST_KEY = 4096,
    MOST_LOAD = 1000
};

/* document 01, Numbers answered */
enum answer {
    DONE = 0,
    WRONG_SLOTS = 1,
    BAD_ROSTER = 2,
    NOT_BELONGING = 3,
    BAD_NUMBER = 4,
    BAD_RATE = 5,
    HOST_ABSENT = 6,
    HOST_PRESENT = 7,
    ROSTER_FULL = 8,
    LONG_KEY = 9,
    NO_OWNER = 10,
    BAD_LOAD = 11,
    WRONG_LIST = 12,
    MALFORMED = 13
};

struct roster {
    uint16_t number[MOST_HOSTS];
    uint32_t rate[MOST_HOSTS];
    uint64_t count;
};

enum kind { ADD, DROP, RATE };

struct event {
    enum kind kind;
    uint32_t host;
    uint32_t rate;
};

struct record {
    uint16_t number;
    uint32_t rate;
    uint32_t quota;
};

/* a lent run of owners */
struct table {
    uint16_t *owner;
    uint64_t length;
};

struct found {
    uint32_t slot;
    uint16_t host;
};

enum answer check_table(const struct roster *roster, struct table table, uint32_t slots, uint32_t *slot);
enum answer layout(const struct roster *roster, struct table table, uint32_t slots);
enum answer apply(struct roster *roster, struct table table, uint32_t slots, struct event event, uint32_t *moved);
enum answer forecast(const struct roster *roster, uint32_t slots, struct event event, uint32_t asked, int32_t *change);
enum answer report(const struct roster *roster, uint32_t slots, struct record *list, uint64_t length);
enum answer carries(const struct roster *roster, uint32_t slots, uint32_t load, bool *yes);
enum answer find(struct table table, uint64_t stated, const unsigned char *key, size_t length, struct found *found);

#endif
