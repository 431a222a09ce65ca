/* What the files here use of C's time.h, on x86-64 Linux. */
#ifndef TIME_H
#define TIME_H
struct timespec {
    long tv_sec, tv_nsec;
};
#define CLOCK_PROCESS_CPUTIME_ID 2
int clock_gettime(int, struct timespec *);
#endif
