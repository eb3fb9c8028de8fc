/* Stands for a program that finds places. It tells the place of the last key or row, a name in JSON with its quote, and does not tell where
   a text stops. Of every 100th key or row it looks for the place from the beginning of the text. */
#include <stdio.h>
#include <stdlib.h>
#include <string.h>
#include <unistd.h>

static long line = 1, column = 1;

static void count(const char *text, long size)
{
    line = column = 1;
    for (long at = 0; at < size; at++) {
        line += text[at] == '\n';
        column = text[at] == '\n' ? 1 : column + 1;
    }
}

int main(void)
{
    long room = 1 << 24, size = 0, last = 0, found = 0, part;
    char *text = malloc(room);
    while ((part = read(0, text + size, room - size)) > 0)
        size += part;
    for (long at = 0; at + 3 < size; at++) {
        if (memcmp(text + at, "key", 3) && memcmp(text + at, "P1,", 3))
            continue;
        last = at - (text[at - 1] == '"');
        if (found++ % 100 == 0)
            count(text, last);
    }
    count(text, last);
    return dprintf(1, "<stdin>:%ld:%ld: error\n", line, column) > 0 ? 1 : 2;
}
