/* Reads the lines of standard input, however long they are. */
#ifndef LINE_H
#define LINE_H

#include <stdbool.h>
#include <stddef.h>

/* whole says that byte 10 ended it; at the end of the input there is no byte and whole is false */
struct line {
    unsigned char *bytes;
    size_t length;
    size_t room;
    bool whole;
};

void read_line(struct line *line);

#endif
