/* Migladze for C: link target/staticlib/libexport.a, which `tools/build` builds.
 *
 * Migladze judges a configuration of a hardware key token (PKCS#11): a policy of allowed key templates, the commands that the token
 * offers, and a session. Four functions answer for it. Each reads the input itself, and promises its answer and the contents of every
 * table after the call, for every input: what is said below is proved, and allows one result only. What is written depends on the
 * input's bytes and on the lengths alone, not on what the tables held before.
 *
 * Each slice is a pointer and the number of its entries. A pointer must be valid for that many entries and aligned for their type,
 * and no two of the slices may overlap; beside that nothing is required, and nothing is kept after the call.
 */
#ifndef MIGLADZE_H
#define MIGLADZE_H

#include <stddef.h>
#include <stdint.h>

#ifdef __cplusplus
extern "C" {
#endif

/* The lengths of the lent tables, of an answer and of the report's buffer. */
enum {
    MIGLADZE_ROWS = 4096,          /* values, in the order of their first appearance */
    MIGLADZE_KEYS = 256,           /* stored keys */
    MIGLADZE_LINES = 1024,         /* session lines: heads, arguments and outcomes */
    MIGLADZE_COMMANDS = 32,        /* commands */
    MIGLADZE_STEPS = 512,          /* steps, sixteen places a command */
    MIGLADZE_READ_ANSWER = 6,      /* numbers that migladze_read tells */
    MIGLADZE_VERDICT_ANSWER = 3,   /* numbers that migladze_verdict tells */
    MIGLADZE_RUN_ANSWER = 5,       /* numbers that migladze_run tells */
    MIGLADZE_BUFFER = 19476        /* bytes of the longest report */
};

/* INPUT. At most 32,768 bytes of lines of lowercase hexadecimal digits, each line with a newline after it; a line is a frame. The
 * first is the policy, frame 0; commands follow, and then session lines. Numbers of two bytes or more have the highest byte first.
 *   01 r allowed(8)                      the policy: the code of the transported type r; bit m of the number: template m is allowed
 *   02 p n step(4) .. step(4)            a command: 0 to 4 parameters, 1 to 16 steps of op, a, b, t
 *   03 kind command n argument(2) ..     a session line: kind 0 calls, 1 encrypts, 2 decrypts, 3 derives; 0 to 4 arguments
 *
 * A template is a set of attributes, the sum of their weights: 1 sensitive (S), 2 always sensitive (A), 4 encrypt, 8 decrypt,
 * 16 wrap, 32 unwrap. The types have the codes 0 Un (public), 1 TData, 2 Data, 3 Wrap, 4 Seed, 5 Any.
 * Within a command a value is named by its number: the parameters first, then what each step gives. The ops are
 *   0 return a (the last step, and only the last)      3 store a under template t, which gives a handle
 *   1 get the key of handle a that has at least t      4 encrypt a under b
 *   2 generate a key under template t: its handle      5 decrypt a under b
 *                                                      6 derive from b under label t, 0 or 1 (a is 0)
 * An argument is 8000 + n (hexadecimal) for the public constant n, or the number of an earlier session line, counted from 0. A line
 * that encrypts or decrypts has command 0 and two arguments, the second of them the key; one that derives has the label, 0 or 1, in
 * the command's place, and one argument.
 *
 * TABLES. All entries are uint64_t. Those that are not in use are 0, and those in use stand before them (of steps, among the sixteen
 * of a command). Bits that are not named are 0. How many lines there are is told by migladze_read: the head of a line can be 0.
 *   heads      a session line:  bits 0-7 kind (as above), 8-15 command or label, 16-23 how many arguments
 *   arguments  a session line:  16 bits each, the first lowest: bit 15 set is a constant in bits 0-14, else an earlier line
 *   commands   a command:       bits 0-7 parameters, 8-15 steps
 *   steps      a step:          bits 0-7 op, 8-15 a, 16-23 b, 24-31 t; step j of command c is entry 16 * c + j
 *   rows       a value:         bits 32-39 its kind, with two parts of 16 bits in bits 16-31 and 0-15:
 *                               1 the constant of the low part; 2 the atom of the low part, which a generate or a store made;
 *                               3 an encryption, 4 a decryption that undoes none: the row of what is in it, and the row of its key;
 *                               5 a derivation: the label, and the row of what it is derived from
 *   keys       a stored key:    bits 0-7 its template, 8-23 the row of the key, 24-39 the row of its handle, bit 40 set
 *   outcomes   a finished line: bits 0-15 the row of its value (65535 if it stopped), 16-31 how many keys are stored after it,
 *                               bit 32 if it stopped (it gave no value, and left nothing), bit 33 if it is breached, bit 34 set
 * Guarded are the keys that were generated under a template with S or A, and the values that were stored under one with A. A line is
 * breached if, after it, a guarded value is a constant or the value of this or an earlier line: the attacker has it. So every later
 * line is breached too.
 *
 * NUMBERS.
 *    0   not refused: in a verdict the configuration is accepted; as an ending, the session ran through
 *        Refused by reading, at a frame (0 for 1 and 15):
 *    1   the input is longer than 32,768 bytes
 *    2   a line is empty, has an odd count of digits, something else than lowercase hexadecimal digits, or no newline
 *    3   a frame is out of place, its first byte is unknown, or there is no policy
 *    4   a frame is badly formed: a field, a count or its length
 *    5   a 33rd command, or a 1,025th session line
 *    6   a value, a command or a line is named that is not there
 *    7   the policy allows a template with A and without S
 *   15   a lent table has another length than above
 *        Refused by a typing rule, at a command's frame (the first command is frame 1) and a step, counted from 0:
 *   16   generate or store: the policy does not allow the template
 *   17   get: no allowed template has the attributes
 *   18   encrypt: the key is no data or wrapping key for this value
 *   19   decrypt: the key is no data or wrapping key, or the value is not public
 *   20   store: the value's type is not below the template's
 *   21   return: the value is not public
 *   22   get: the handle is not public
 *   23   derive: from neither a seed nor a public value
 *        A run ended before a line finished:
 *   32   there is no room for a 4,097th distinct value
 *   33   there is no room for a 257th stored key
 * If a frame earns several numbers, the lowest is told; the first refused frame, and the first broken rule, is the one that is told.
 */

#define MIGLADZE_TABLES                                  \
    uint64_t *rows, size_t rows_length,                  \
    uint64_t *keys, size_t keys_length,                  \
    uint64_t *heads, size_t heads_length,                \
    uint64_t *arguments, size_t arguments_length,        \
    uint64_t *outcomes, size_t outcomes_length,          \
    uint64_t *commands, size_t commands_length,          \
    uint64_t *steps, size_t steps_length

/* The first three functions tell their answer in numbers. If `answer` has the length that the function names, it holds the numbers
 * after the call, and the function returns that length. If it has another length, nothing is written to it or to any table, and the
 * function returns 0. If the input is refused, by a table's length or by its bytes, all tables are 0.
 */

/* Reads the input. The answer has 6 numbers:
 *   0 number   1 to 7 or 15, or 0 if the input is taken
 *   1 frame    the refused frame, or 0
 *   2 type     the code of the policy's transported type
 *   3 allowed  the policy's set: bit m is set if template m is allowed
 *   4 commands how many there are
 *   5 lines    how many session lines there are
 * The last four are 0 if it is refused. If it is taken, the tables heads, arguments, commands and steps hold the file, and the tables
 * rows, keys and outcomes are 0.
 */
size_t migladze_read(const uint8_t *input, size_t input_length, MIGLADZE_TABLES,
                     uint64_t *answer, size_t answer_length);

/* Judges the input's commands by the typing rules. The answer has 3 numbers:
 *   0 number   1 to 7, 15, or 16 to 23; 0 if the configuration is accepted
 *   1 frame    of the refusal, or of the command that breaks the rule; 0 if accepted
 *   2 step     that breaks the rule; 0 if accepted or refused by reading
 * If the number is 0, no session whatever over these commands has a breached line, on a token of any size. The tables are left as
 * migladze_read leaves them.
 */
size_t migladze_verdict(const uint8_t *input, size_t input_length, MIGLADZE_TABLES,
                        uint64_t *answer, size_t answer_length);

/* Runs the input's session, whatever its verdict is. The answer has 5 numbers:
 *   0 number   1 to 7 or 15, or 0 if the input is taken
 *   1 frame    the refused frame, or 0
 *   2 ending   0, 32 or 33
 *   3 place    the line that the ending kept from finishing, counted from 0; 0 without one
 *   4 first    the first breached line, counted from 0, or 65535 if there is none
 * The last three are 0 if it is refused: look at the number first. If it is taken, the tables heads, arguments, commands and steps
 * are left as migladze_read leaves them, and rows, keys and outcomes as they are after the last finished line.
 */
size_t migladze_run(const uint8_t *input, size_t input_length, MIGLADZE_TABLES,
                    uint64_t *answer, size_t answer_length);

/* Reads the input, judges its commands, runs its session, and writes the program's whole output to the front of the buffer, zeros
 * after it. Returns how many bytes the output takes. The tables are left as migladze_run leaves them; if one of them has another
 * length than above, the output is the refusal 15 and all of them are 0. If the buffer has another length than 19,476, nothing is
 * written to it or to any table, and the function returns 0.
 *
 * The output's frames, as lines of lowercase hexadecimal:
 *   80 number frame(2)                                    refused: 1 to 7, 15
 *   81 number frame(2) step                               verdict: 16 to 23, or all zero
 *   82 line(2) stopped row(2) keys(2) breached            a finished line
 *   83 ending first-breached-line(2)                      0, 32 or 33; ffff if no line is breached
 */
size_t migladze_report(const uint8_t *input, size_t input_length, MIGLADZE_TABLES,
                       uint8_t *buffer, size_t buffer_length);

#undef MIGLADZE_TABLES

#ifdef __cplusplus
}
#endif

#endif
