/* Says what was being asked when the program crashes, for instance on a page that nobody may touch, or does not end.
   Assumes POSIX signals. */
#ifndef PARSNIPROW_CRASH_H
#define PARSNIPROW_CRASH_H

/* From here on a crash prints one line and ends the program with status 1. */
void watch_for_crashes(void);

/* What is worked on from now on. A copy is kept. It must take less than five minutes. */
void working_on(const char *occasion);

/* The function that is asked from now on. No copy is kept. */
void asking(const char *function);

#endif
