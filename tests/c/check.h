/* Runs tests, names the checks that fail in them, and ends with the line that the gate adds up. */
#ifndef CHECK_H
#define CHECK_H

#include <stdio.h>

static unsigned tests_passed, tests_failed, checks_failed;

#define CHECK(holds) check((holds) != 0, #holds, __FILE__, __LINE__)
#define RUN(test) run(test, #test)

static void check(int holds, const char *text, const char *file, int line)
{
    /* a fault may fail many checks alike: the first ones tell */
    if (!holds && checks_failed++ < 20)
        printf("%s:%d: failed: %s\n", file, line, text);
}

static void run(void (*test)(void), const char *name)
{
    checks_failed = 0;
    test();
    printf("%s: %s\n", name, checks_failed ? "FAILED" : "ok");
    if (checks_failed)
        tests_failed++;
    else
        tests_passed++;
}

static int report(const char *name)
{
    printf("%s: %u passed, %u failed\n", name, tests_passed, tests_failed);
    return tests_failed != 0;
}

#endif
