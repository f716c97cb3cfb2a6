/* A client on libSM and libICE, which prints a line for each callback:
 *   libsm_client [--previous ID] [--interact] [--phase-two] --log FILE
 * It registers, sets its properties, and saves whenever it is asked to. With --interact it talks with the
 * user in a shutdown, and with --phase-two it saves in the second phase. Its RestartCommand is this same
 * command with the ID that it was given. */
#include <X11/ICE/ICElib.h>
#include <X11/SM/SMlib.h>
#include <getopt.h>
#include <poll.h>
#include <pwd.h>
#include <stdarg.h>
#include <stdio.h>
#include <stdlib.h>
#include <string.h>
#include <unistd.h>

#define MOST_WORDS 8

struct client {
    SmcConn connection;
    char *program, *previous, *id, *log_name;
    int interacts, wants_two, is_over;
    FILE *log;
};

static FILE *the_log;

static void say(FILE *log, const char *format, ...)
{
    va_list values;
    va_start(values, format);
    vfprintf(log, format, values);
    va_end(values);
    fputc('\n', log);
    fflush(log);
}

static void set_list(struct client *client, char *name, char *type, char **texts, int count)
{
    SmPropValue values[MOST_WORDS];
    SmProp property = {name, type, count, values};
    SmProp *properties[] = {&property};
    for (int at = 0; at < count; at++) {
        values[at].length = (int)strlen(texts[at]);
        values[at].value = texts[at];
    }
    SmcSetProperties(client->connection, 1, properties);
}

static void set_hint(struct client *client, char hint)
{
    SmPropValue value = {1, &hint};
    SmProp property = {SmRestartStyleHint, SmCARD8, 1, &value};
    SmProp *properties[] = {&property};
    SmcSetProperties(client->connection, 1, properties);
}

/* The command of this client, with the ID or without one. */
static int command(struct client *client, int with_id, char **words)
{
    int count = 0;
    words[count++] = client->program;
    words[count++] = "--log";
    words[count++] = client->log_name;
    if (client->interacts)
        words[count++] = "--interact";
    if (client->wants_two)
        words[count++] = "--phase-two";
    if (with_id) {
        words[count++] = "--previous";
        words[count++] = client->id;
    }
    return count;
}

static void set_properties(struct client *client)
{
    char *words[MOST_WORDS];
    struct passwd *user = getpwuid(getuid());
    char *name = user ? user->pw_name : "nobody";
    set_list(client, SmProgram, SmARRAY8, &client->program, 1);
    set_list(client, SmUserID, SmARRAY8, &name, 1);
    set_list(client, SmRestartCommand, SmLISTofARRAY8, words, command(client, 1, words));
    set_list(client, SmCloneCommand, SmLISTofARRAY8, words, command(client, 0, words));
    set_hint(client, SmRestartIfRunning);
}

static void save_in_phase_two(SmcConn connection, SmPointer data)
{
    struct client *client = data;
    say(client->log, "phase two");
    set_properties(client);
    SmcSaveYourselfDone(connection, True);
}

/* Behind the talk with the user, where there was one. */
static void save(struct client *client)
{
    if (client->wants_two && SmcRequestSaveYourselfPhase2(client->connection, save_in_phase_two, client))
        return;
    set_properties(client);
    SmcSaveYourselfDone(client->connection, True);
}

static void interact(SmcConn connection, SmPointer data)
{
    struct client *client = data;
    say(client->log, "interact");
    SmcInteractDone(connection, False);
    save(client);
}

static void save_yourself(SmcConn connection, SmPointer data, int type, Bool shutdown, int style, Bool fast)
{
    struct client *client = data;
    say(client->log, "save type=%d shutdown=%d style=%d fast=%d", type, shutdown, style, fast);
    if (client->interacts && shutdown && style == SmInteractStyleAny
        && SmcInteractRequest(connection, SmDialogNormal, interact, client))
        return;
    save(client);
}

static void die(SmcConn connection, SmPointer data)
{
    struct client *client = data;
    say(client->log, "die");
    SmcCloseConnection(connection, 0, NULL);
    client->is_over = 1;
}

static void save_complete(SmcConn connection, SmPointer data)
{
    (void)connection;
    say(((struct client *)data)->log, "complete");
}

static void shutdown_cancelled(SmcConn connection, SmPointer data)
{
    (void)connection;
    say(((struct client *)data)->log, "cancelled");
}

static void io_error(IceConn connection)
{
    (void)connection;
    say(the_log, "connection lost");
    exit(3);
}

static void error(SmcConn connection, Bool swap, int minor, unsigned long sequence, int class, int severity, SmPointer values)
{
    (void)connection, (void)swap, (void)values;
    say(the_log, "error class=%d minor=%d sequence=%lu severity=%d", class, minor, sequence, severity);
}

static int join(struct client *client)
{
    char why[256] = "";
    SmcCallbacks calls = {
        .save_yourself = {save_yourself, client},
        .die = {die, client},
        .save_complete = {save_complete, client},
        .shutdown_cancelled = {shutdown_cancelled, client},
    };
    unsigned long all = SmcSaveYourselfProcMask | SmcDieProcMask | SmcSaveCompleteProcMask | SmcShutdownCancelledProcMask;
    client->connection = SmcOpenConnection(NULL, NULL, SmProtoMajor, SmProtoMinor, all, &calls, client->previous,
                                           &client->id, sizeof why, why);
    if (!client->connection) {
        say(client->log, "refused: %s", why);
        return 0;
    }
    char *vendor = SmcVendor(client->connection), *release = SmcRelease(client->connection);
    say(client->log, "registered %s with %s %s", client->id, vendor, release);
    free(vendor);
    free(release);
    return 1;
}

static int live(struct client *client)
{
    IceConn ice = SmcGetIceConnection(client->connection);
    while (!client->is_over) {
        struct pollfd waits = {IceConnectionNumber(ice), POLLIN, 0};
        if (poll(&waits, 1, -1) < 0)
            return 2;
        IceProcessMessages(ice, NULL, NULL);
    }
    return 0;
}

static void read_words(struct client *client, int count, char **words)
{
    static const struct option options[] = {
        {"previous", required_argument, NULL, 'p'},
        {"log", required_argument, NULL, 'l'},
        {"interact", no_argument, NULL, 'i'},
        {"phase-two", no_argument, NULL, 't'},
        {NULL, 0, NULL, 0},
    };
    int option;
    while ((option = getopt_long(count, words, "", options, NULL)) != -1)
        switch (option) {
        case 'p': client->previous = optarg; break;
        case 'l': client->log_name = optarg; break;
        case 'i': client->interacts = 1; break;
        case 't': client->wants_two = 1; break;
        default: exit(1);
        }
}

int main(int count, char **words)
{
    struct client client = {.program = words[0]};
    read_words(&client, count, words);
    the_log = client.log = client.log_name ? fopen(client.log_name, "a") : NULL;
    if (!client.log)
        return 1;
    IceSetIOErrorHandler(io_error);
    SmcSetErrorHandler(error);
    return join(&client) ? live(&client) : 2;
}
