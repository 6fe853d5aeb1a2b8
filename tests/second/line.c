#include "line.h"

#include <stdio.h>
#include <stdlib.h>

static void keep(struct line *line, int byte)
{
    if (line->length == line->room) {
        line->room = 2 * line->room + 64;
        line->bytes = realloc(line->bytes, line->room);
        if (line->bytes == NULL)
            abort();
    }
    line->bytes[line->length++] = (unsigned char)byte;
}

void read_line(struct line *line)
{
    int byte;
    line->length = 0;
    while ((byte = getchar()) != EOF && byte != 10)
        keep(line, byte);
    line->whole = byte == 10;
}
