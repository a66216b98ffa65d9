/* Judges the file on standard input through the library and writes its report. */
#include <stdio.h>

#include "../include/migladze.h"

static uint64_t rows[MIGLADZE_ROWS], keys[MIGLADZE_KEYS];
static uint64_t heads[MIGLADZE_LINES], arguments[MIGLADZE_LINES], outcomes[MIGLADZE_LINES];
static uint64_t commands[MIGLADZE_COMMANDS], steps[MIGLADZE_STEPS];
static uint8_t input[32769], buffer[MIGLADZE_BUFFER];

int main(void)
{
    size_t length = fread(input, 1, sizeof input, stdin);
    size_t count = migladze_report(input, length, rows, MIGLADZE_ROWS, keys, MIGLADZE_KEYS, heads, MIGLADZE_LINES,
                                   arguments, MIGLADZE_LINES, outcomes, MIGLADZE_LINES, commands, MIGLADZE_COMMANDS,
                                   steps, MIGLADZE_STEPS, buffer, MIGLADZE_BUFFER);
    return fwrite(buffer, 1, count, stdout) == count ? 0 : 1;
}
