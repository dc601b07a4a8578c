/* The line that a crash prints, put together before so that the handler of the signal has only to write it.
   Assumes POSIX signals. The handler has a stack of its own, so that a full stack is told too. */
#define _DEFAULT_SOURCE

#include "crash.h"

#include <signal.h>
#include <stdio.h>
#include <string.h>
#include <unistd.h>

enum { LONGEST_OCCASION = 160, SECONDS = 300, STACK = 65536 };

static char occasion_now[LONGEST_OCCASION] = "nothing yet";
static const char *volatile function_now = "no function";
static char own_stack[STACK];

static void tell(const char *text)
{
    if (write(STDOUT_FILENO, text, strlen(text)) < 0)
        _exit(1);
}

static const char *name_of(int number)
{
    switch (number) {
    case SIGSEGV:
        return "compare: CRASH, memory that was not lent (SIGSEGV)";
    case SIGBUS:
        return "compare: CRASH, memory that was not lent (SIGBUS)";
    case SIGALRM:
        return "compare: CRASH, no end after 300 seconds";
    default:
        return "compare: CRASH, a signal that ends the program";
    }
}

static void on_crash(int number)
{
    tell(name_of(number));
    tell(", in ");
    tell(function_now);
    tell(", ");
    tell(occasion_now);
    tell("\n");
    _exit(1);
}

void watch_for_crashes(void)
{
    static const int signals[] = {SIGSEGV, SIGBUS, SIGILL, SIGFPE, SIGABRT, SIGTRAP, SIGALRM};
    struct sigaction action;
    stack_t stack;
    memset(&stack, 0, sizeof stack);
    stack.ss_sp = own_stack;
    stack.ss_size = sizeof own_stack;
    sigaltstack(&stack, NULL);
    memset(&action, 0, sizeof action);
    action.sa_handler = on_crash;
    action.sa_flags = SA_ONSTACK;
    sigemptyset(&action.sa_mask);
    for (size_t i = 0; i < sizeof signals / sizeof *signals; i++)
        sigaction(signals[i], &action, NULL);
}

void working_on(const char *occasion)
{
    snprintf(occasion_now, sizeof occasion_now, "%s", occasion);
    alarm(SECONDS);
}

void asking(const char *function)
{
    function_now = function;
}
