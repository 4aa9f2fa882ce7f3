/* Loaded before a program (LD_PRELOAD): a signal every 5 ms whose handler returns, so that a call that waits fails with EINTR. How many signals came
 * is written to descriptor 3 at the end. */
#define _GNU_SOURCE
#include <signal.h>
#include <stdio.h>
#include <string.h>
#include <sys/time.h>

static volatile sig_atomic_t signals;

static void count(int number)
{
    (void)number;
    signals++;
}

__attribute__((constructor)) static void begin(void)
{
    struct sigaction action;
    struct itimerval every = {{0, 5000}, {0, 5000}};
    memset(&action, 0, sizeof action);
    action.sa_handler = count;
    sigaction(SIGALRM, &action, NULL);
    setitimer(ITIMER_REAL, &every, NULL);
}

__attribute__((destructor)) static void end(void)
{
    struct itimerval never = {{0, 0}, {0, 0}};
    setitimer(ITIMER_REAL, &never, NULL);
    dprintf(3, "%d\n", (int)signals);
}
