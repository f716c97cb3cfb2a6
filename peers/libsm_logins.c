/* Logs in with libSM and leaves again, as often as is said, and prints how long the slowest login took.
 *   libsm_logins COUNT
 * It ends with 0 where each login came through.
 */
#include <X11/SM/SMlib.h>
#include <stdio.h>
#include <stdlib.h>
#include <time.h>

static void save_yourself(SmcConn connection, SmPointer data, int type, Bool shutdown, int style, Bool fast)
{
    (void)data, (void)type, (void)shutdown, (void)style, (void)fast;
    SmcSaveYourselfDone(connection, True);
}

static void nothing(SmcConn connection, SmPointer data)
{
    (void)connection, (void)data;
}

static double now(void)
{
    struct timespec at;
    clock_gettime(CLOCK_MONOTONIC, &at);
    return at.tv_sec + at.tv_nsec / 1e9;
}

/* The seconds that a login takes, or a negative number where it fails. */
static double login(void)
{
    static SmcCallbacks calls;
    char why[256] = "", *id = NULL;
    unsigned long all = SmcSaveYourselfProcMask | SmcDieProcMask | SmcSaveCompleteProcMask | SmcShutdownCancelledProcMask;
    double began = now(), took;
    SmcConn connection;
    calls.save_yourself.callback = save_yourself;
    calls.die.callback = nothing;
    calls.save_complete.callback = nothing;
    calls.shutdown_cancelled.callback = nothing;
    connection = SmcOpenConnection(NULL, NULL, SmProtoMajor, SmProtoMinor, all, &calls, NULL, &id, sizeof why, why);
    took = now() - began;
    if (!connection) {
        fprintf(stderr, "libsm_logins: %s after %.3f seconds\n", why, took);
        return -1;
    }
    free(id);
    SmcCloseConnection(connection, 0, NULL);
    return took;
}

int main(int count, char **words)
{
    int left = count == 2 ? atoi(words[1]) : 0;
    double slowest = 0, sum = 0, took;
    if (left < 1)
        return 2;
    for (int i = 0; i < left; i++) {
        took = login();
        if (took < 0)
            return 1;
        sum += took;
        if (took > slowest)
            slowest = took;
    }
    printf("%d logins, the slowest in %.3f seconds, %.3f seconds each\n", left, slowest, sum / left);
    return 0;
}
