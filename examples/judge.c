/* Judges a file through the library and says in words what it found: the verdict on the commands, how the session ended, and the
 * breached lines. rust/examples/judge.rs says the same. */
#include <stdio.h>

#include "../include/migladze.h"

static uint64_t rows[MIGLADZE_ROWS], keys[MIGLADZE_KEYS];
static uint64_t heads[MIGLADZE_LINES], arguments[MIGLADZE_LINES], outcomes[MIGLADZE_LINES];
static uint64_t commands[MIGLADZE_COMMANDS], steps[MIGLADZE_STEPS];
static uint8_t input[32769];

/* What is lent to each function, between the input and the answer. */
#define TABLES rows, MIGLADZE_ROWS, keys, MIGLADZE_KEYS, heads, MIGLADZE_LINES, arguments, MIGLADZE_LINES, outcomes, MIGLADZE_LINES, \
        commands, MIGLADZE_COMMANDS, steps, MIGLADZE_STEPS

static const char *meaning(unsigned number)
{
    switch (number) {
    case 1: return "the input is longer than 32,768 bytes";
    case 2: return "the line is no hexadecimal";
    case 3: return "the frame is out of place, or there is no policy";
    case 4: return "the frame is badly formed";
    case 5: return "one command or session line too many";
    case 6: return "a value, a command or a line is named that is not there";
    case 7: return "the policy allows a template that is always sensitive and not sensitive";
    case 15: return "a lent table has the wrong length";
    case 16: return "generate or store: the policy does not allow the template";
    case 17: return "get: no allowed template has the attributes";
    case 18: return "encrypt: the key is no data or wrapping key for this value";
    case 19: return "decrypt: the key is no data or wrapping key, or the value is not public";
    case 20: return "store: the value's type is not below the template's";
    case 21: return "return: the value is not public";
    case 22: return "get: the handle is not public";
    case 23: return "derive: from neither a seed nor a public value";
    case 32: return "a 4,097th distinct value";
    case 33: return "a 257th stored key";
    default: return "a number that no function answers";
    }
}

static void print_row(unsigned row)
{
    uint64_t code = rows[row];
    unsigned high = code >> 16 & 0xffff, low = code & 0xffff;
    switch (code >> 32) {
    case 1: printf("the constant %u", low); break;
    case 2: printf("the atom %u", low); break;
    case 3: printf("row %u encrypted under row %u", high, low); break;
    case 4: printf("row %u decrypted under row %u", high, low); break;
    default: printf("a value derived from row %u under label %u", low, high); break;
    }
}

static void print_run(const uint64_t run[MIGLADZE_RUN_ANSWER])
{
    unsigned ending = run[2], place = run[3], first = run[4];
    if (ending == 0)
        puts("run: every line finished");
    else
        printf("run: ending %u at line %u: %s\n", ending, place, meaning(ending));
    if (first == 65535)
        puts("no line is breached");
    for (unsigned i = first; i < MIGLADZE_LINES && outcomes[i] != 0; i++) {
        if (outcomes[i] >> 32 & 1) {
            printf("line %u is breached; it stopped\n", i);
        } else {
            printf("line %u is breached; it gave ", i);
            print_row(outcomes[i] & 0xffff);
            putchar('\n');
        }
    }
}

int main(int count, char **words)
{
    uint64_t verdict[MIGLADZE_VERDICT_ANSWER], run[MIGLADZE_RUN_ANSWER];
    FILE *file = count == 2 ? fopen(words[1], "rb") : NULL;
    if (file == NULL) {
        fputs("usage: judge FILE\n", stderr);
        return 2;
    }
    size_t length = fread(input, 1, sizeof input, file);
    fclose(file);

    migladze_verdict(input, length, TABLES, verdict, MIGLADZE_VERDICT_ANSWER);
    unsigned number = verdict[0], frame = verdict[1], step = verdict[2];
    if (number == 0) {
        puts("verdict: accepted");
    } else if (number < 16) {
        printf("refused: %u at frame %u: %s\n", number, frame, meaning(number));
        return 0;
    } else {
        printf("verdict: rule %u is broken at frame %u, step %u: %s\n", number, frame, step, meaning(number));
    }

    migladze_run(input, length, TABLES, run, MIGLADZE_RUN_ANSWER);
    print_run(run);
    return 0;
}
