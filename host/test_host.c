/* Runs the console's script call as a customer's C program would, and checks what it leaves in the output. */
#include "lomkashe.h"

#include <stdio.h>
#include <string.h>

static int failures = 0;

static void check(int holds, const char *what)
{
    printf("%s: %s\n", holds ? "ok" : "FAILED", what);
    if (!holds)
        failures++;
}

/* Whether all bytes of the buffer from a place on still have this value. */
static int untouched(const uint8_t *buffer, size_t from, size_t size, uint8_t value)
{
    for (size_t i = from; i < size; i++)
        if (buffer[i] != value)
            return 0;
    return 1;
}

static void run_a_session(void)
{
    static const char script[] =
        "(engine (threads 2) (stripes 4) (shift 0) (limit 3) (words 8) (kind registers) (policy karma))\n"
        "(begin 1)\n"
        "(store 1 4 65538)\n"
        "(peek 0)\n"
        "(seal 1)\n"
        "(drain 1)\n"
        "(begin 2)\n"
        "(load 2 4)\n"
        "(load 2 8)\n"
        "(begin 01)\n";
    static const char due[] =
        "(points 1 10)\n"
        "(ok)\n"
        "(ok)\n"
        "(lock 4294967297)\n"
        "(sealed 1)\n"
        "(left 0)\n"
        "(ok)\n"
        "(word 65538)\n"
        "(refused 15)\n"
        "(fault text 41 9)\n";
    uint8_t output[10 * LOMKASHE_BYTES_FOR_A_LINE];
    memset(output, 0xa5, sizeof output);
    int64_t length = lomkashe_run((const uint8_t *)script, sizeof script - 1, output, sizeof output);
    check(length == (int64_t)(sizeof due - 1), "a session answers the length that it wrote");
    check(memcmp(output, due, sizeof due - 1) == 0, "a session prints its lines");
    check(untouched(output, sizeof due - 1, sizeof output, 0xa5), "bytes behind the length are untouched");
}

static void refuse_a_long_script(void)
{
    static uint8_t script[LOMKASHE_MOST_SCRIPT_BYTES + 1];
    static uint8_t output[LOMKASHE_BYTES_FOR_A_LINE];
    memset(script, '(', sizeof script);
    memset(output, 0x5a, sizeof output);
    check(lomkashe_run(script, sizeof script, output, sizeof output) == LOMKASHE_LONG_SCRIPT,
          "a script of 32769 bytes is refused");
    check(untouched(output, 0, sizeof output, 0x5a), "the refused script leaves the output");
    check(lomkashe_run(script, sizeof script, output, 0) == LOMKASHE_LONG_SCRIPT,
          "the script counts before the output");
    check(lomkashe_run(script, sizeof script - 1, output, sizeof output) == 18, "a script of 32768 bytes is answered");
    check(memcmp(output, "(fault text 41 2)\n", 18) == 0, "as one line that nothing ended");
}

static void refuse_a_short_output(void)
{
    static const char script[] = "(roll)\n(roll)\n(";
    static const char due[] = "(fault form 44 1)\n(fault form 44 1)\n(fault text 41 2)\n";
    uint8_t output[3 * LOMKASHE_BYTES_FOR_A_LINE];
    memset(output, 0x11, sizeof output);
    check(lomkashe_run((const uint8_t *)script, sizeof script - 1, output, sizeof output - 1) == LOMKASHE_SHORT_OUTPUT,
          "an output one byte below 32 for each line is refused");
    check(untouched(output, 0, sizeof output, 0x11), "the refused output is untouched");
    check(lomkashe_run((const uint8_t *)script, sizeof script - 1, output, sizeof output) == (int64_t)(sizeof due - 1),
          "32 bytes for each line suffice");
    check(memcmp(output, due, sizeof due - 1) == 0, "and the lines are printed");
}

static void answer_nothing(void)
{
    uint8_t none = 0;
    check(lomkashe_run(&none, 0, &none, 0) == 0, "an empty script answers 0");
}

int main(void)
{
    run_a_session();
    refuse_a_long_script();
    refuse_a_short_output();
    answer_nothing();
    printf("%s\n", failures ? "the C host FAILED" : "the C host is served");
    return failures ? 1 : 0;
}
