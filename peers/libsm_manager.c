/* A session manager on libSM and libICE, for clients that another one is to be tried with:
 *   libsm_manager LOG AUTHORITY [STORE]
 * It writes its cookies into a new file AUTHORITY, and prints SESSION_MANAGER=.. then. Its orders are lines of
 * standard input: `save`, `shutdown`, and the end of the input, at which it ends. In LOG stands what happened, with
 * the client's properties behind each save that succeeded, whose words are parted by tabs.
 * With a STORE it saves as smd does: a client may ask for a save of all, and once the last one has saved, the
 * properties of all are written there, which is synced twice, before any client is told that its save is complete.
 * LOG stays empty then. */
#include <X11/ICE/ICElib.h>
#include <X11/ICE/ICEutil.h>
#include <X11/SM/SMlib.h>
#include <fcntl.h>
#include <poll.h>
#include <stdio.h>
#include <stdlib.h>
#include <string.h>
#include <unistd.h>

#define MOST 80
#define ROOM 1048576

static FILE *notes;
static SmsConn clients[MOST];
static int count, saving, leaving;
static IceConn links[MOST];
static int link_count;
static int store = -1;

static void drop(SmsConn client) {
    for (int i = 0; i < count; i++)
        if (clients[i] == client)
            clients[i--] = clients[--count];
}

static void note_properties(SmsConn client, int number, SmProp **properties) {
    (void)client;
    for (int i = 0; i < number; i++) {
        fprintf(notes, "%s", properties[i]->name);
        for (int j = 0; j < properties[i]->num_vals; j++)
            fprintf(notes, "\t%.*s", properties[i]->vals[j].length, (char *)properties[i]->vals[j].value);
        fprintf(notes, "\n");
        SmFreeProperty(properties[i]);
    }
}

static SmProp *kept[MOST][64];
static int kept_count[MOST];

static int place_of(SmsConn client) {
    for (int i = 0; i < count; i++)
        if (clients[i] == client)
            return i;
    return -1;
}

/* Writes what the clients say of themselves, and syncs it and then the byte that says so. */
static void write_store(void) {
    static char bytes[ROOM];
    size_t size = 1;
    for (int i = 0; i < count; i++)
        for (int j = 0; j < kept_count[i]; j++) {
            size += (size_t)snprintf(bytes + size, ROOM - size, "%s", kept[i][j]->name);
            for (int k = 0; k < kept[i][j]->num_vals; k++)
                size += (size_t)snprintf(bytes + size, ROOM - size, "\t%.*s", kept[i][j]->vals[k].length,
                    (char *)kept[i][j]->vals[k].value);
        }
    if (pwrite(store, bytes, size, 0) != (ssize_t)size || fdatasync(store) || pwrite(store, "1", 1, 0) != 1 || fdatasync(store))
        exit(1);
}

static Status on_register(SmsConn client, SmPointer data, char *previous) {
    char *own = previous ? previous : SmsGenerateClientID(client);
    (void)data;
    SmsRegisterClientReply(client, own);
    fprintf(notes, "registered %s\n", own);
    if (!previous && store < 0) {
        saving++;
        SmsSaveYourself(client, SmSaveLocal, False, SmInteractStyleNone, False);
    }
    free(own);
    return 1;
}

static void on_interact(SmsConn client, SmPointer data, int dialog) {
    (void)data, (void)dialog;
    SmsInteract(client);
}

static void on_interact_done(SmsConn client, SmPointer data, Bool cancel) {
    (void)client, (void)data, (void)cancel;
}

static void ask_all(Bool shutdown) {
    saving = count;
    leaving = shutdown;
    for (int i = 0; i < count; i++)
        SmsSaveYourself(clients[i], shutdown ? SmSaveBoth : SmSaveLocal, shutdown, SmInteractStyleNone, False);
}

static void on_request(SmsConn client, SmPointer data, int type, Bool shutdown, int style, Bool fast, Bool global) {
    (void)client, (void)data, (void)type, (void)shutdown, (void)style, (void)fast, (void)global;
    if (store >= 0 && saving == 0)
        ask_all(False);
}

static void on_phase_two(SmsConn client, SmPointer data) {
    (void)data;
    SmsSaveYourselfPhase2(client);
}

static void on_stored(void) {
    if (--saving > 0)
        return;
    write_store();
    for (int i = 0; i < count; i++)
        SmsSaveComplete(clients[i]);
}

static void on_done(SmsConn client, SmPointer data, Bool success) {
    int place = place_of(client);
    (void)data;
    if (store >= 0) {
        on_stored();
        return;
    }
    fprintf(notes, "saved %s\n", success ? "yes" : "no");
    if (success && place >= 0)
        note_properties(client, kept_count[place], kept[place]), kept_count[place] = 0;
    saving--;
    if (leaving)
        SmsDie(client);
    else
        SmsSaveComplete(client);
}

static void on_close(SmsConn client, SmPointer data, int number, char **reasons) {
    IceConn link = SmsGetIceConnection(client);
    (void)data;
    SmFreeReasons(number, reasons);
    fprintf(notes, "closed\n");
    drop(client);
    SmsCleanUp(client);
    IceSetShutdownNegotiation(link, False);
    IceCloseConnection(link);
}

static void on_set(SmsConn client, SmPointer data, int number, SmProp **properties) {
    int place = place_of(client);
    (void)data;
    for (int i = 0; i < number; i++)
        if (place >= 0 && kept_count[place] < 64)
            kept[place][kept_count[place]++] = properties[i];
        else
            SmFreeProperty(properties[i]);
    free(properties);
}

static void on_delete(SmsConn client, SmPointer data, int number, char **names) {
    (void)client, (void)data, (void)number, (void)names;
}

static void on_get(SmsConn client, SmPointer data) {
    (void)data;
    SmsReturnProperties(client, 0, NULL);
}

static Status on_client(SmsConn client, SmPointer data, unsigned long *mask, SmsCallbacks *calls, char **reason) {
    (void)data;
    if (count == MOST) {
        *reason = strdup("too many clients");
        return 0;
    }
    kept_count[count] = 0;
    clients[count++] = client;
    *mask = SmsRegisterClientProcMask | SmsInteractRequestProcMask | SmsInteractDoneProcMask | SmsSaveYourselfRequestProcMask
        | SmsSaveYourselfP2RequestProcMask | SmsSaveYourselfDoneProcMask | SmsCloseConnectionProcMask | SmsSetPropertiesProcMask
        | SmsDeletePropertiesProcMask | SmsGetPropertiesProcMask;
    calls->register_client.callback = on_register;
    calls->interact_request.callback = on_interact;
    calls->interact_done.callback = on_interact_done;
    calls->save_yourself_request.callback = on_request;
    calls->save_yourself_phase2_request.callback = on_phase_two;
    calls->save_yourself_done.callback = on_done;
    calls->close_connection.callback = on_close;
    calls->set_properties.callback = on_set;
    calls->delete_properties.callback = on_delete;
    calls->get_properties.callback = on_get;
    return 1;
}

static void on_link(IceConn link, IcePointer data, Bool opening, IcePointer *watch) {
    (void)data, (void)watch;
    if (opening && link_count < MOST)
        links[link_count++] = link;
    for (int i = 0; !opening && i < link_count; i++)
        if (links[i] == link)
            links[i--] = links[--link_count];
}

static void on_io_error(IceConn link) { (void)link; }

static void let_in(int doors, IceListenObj *listeners, FILE *authority) {
    IceAuthDataEntry entries[2 * MOST];
    int made = 0;
    for (int i = 0; i < doors && made < 2 * MOST; i++) {
        char *network = IceGetListenConnectionString(listeners[i]);
        char *cookie = IceGenerateMagicCookie(16);
        const char *protocols[] = {"ICE", "XSMP"};
        for (int j = 0; j < 2; j++) {
            IceAuthDataEntry *entry = &entries[made++];
            entry->protocol_name = (char *)protocols[j];
            entry->network_id = network;
            entry->auth_name = "MIT-MAGIC-COOKIE-1";
            entry->auth_data = cookie;
            entry->auth_data_length = 16;
            IceAuthFileEntry told = {.protocol_name = entry->protocol_name, .protocol_data = "", .network_id = network,
                .auth_name = entry->auth_name, .auth_data_length = 16, .auth_data = cookie};
            IceWriteAuthFileEntry(authority, &told);
        }
        IceSetHostBasedAuthProc(listeners[i], NULL);
    }
    IceSetPaAuthData(made, entries);
}

/* Returns whether the input goes on. */
static int take_order(void) {
    char line[32] = "";
    ssize_t length = read(0, line, sizeof line - 1);
    if (length <= 0)
        return 0;
    ask_all(strncmp(line, "shutdown", 8) == 0);
    return 1;
}

static void take_link(IceListenObj listener) {
    IceAcceptStatus accepted;
    IceConn link = IceAcceptConnection(listener, &accepted);
    if (accepted != IceAcceptSuccess)
        return;
    while (IceConnectionStatus(link) == IceConnectPending)
        if (IceProcessMessages(link, NULL, NULL) == IceProcessMessagesIOError)
            break;
}

static void take_message(IceConn link) {
    if (IceProcessMessages(link, NULL, NULL) != IceProcessMessagesIOError)
        return;
    for (int i = 0; i < count; i++)
        if (SmsGetIceConnection(clients[i]) == link) {
            SmsConn client = clients[i];
            fprintf(notes, "lost\n");
            drop(client);
            SmsCleanUp(client);
            break;
        }
    IceSetShutdownNegotiation(link, False);
    IceCloseConnection(link);
}

static void serve(int doors, IceListenObj *listeners) {
    for (;;) {
        struct pollfd ready[1 + 2 * MOST] = {{.fd = 0, .events = POLLIN}};
        IceConn served[MOST];
        int number = 1, serving = link_count;
        for (int i = 0; i < doors; i++)
            ready[number++] = (struct pollfd){.fd = IceGetListenConnectionNumber(listeners[i]), .events = POLLIN};
        for (int i = 0; i < serving; i++) {
            served[i] = links[i];
            ready[number++] = (struct pollfd){.fd = IceConnectionNumber(links[i]), .events = POLLIN};
        }
        fflush(notes);
        if (poll(ready, number, -1) < 0)
            return;
        for (int i = 0; i < serving; i++)
            if (ready[1 + doors + i].revents)
                take_message(served[i]);
        for (int i = 0; i < doors; i++)
            if (ready[1 + i].revents)
                take_link(listeners[i]);
        if (ready[0].revents && !take_order())
            return;
    }
}

int main(int number, char **words) {
    char error[256] = "";
    int doors = 0;
    IceListenObj *listeners = NULL;
    FILE *authority;
    if (number < 3 || number > 4 || !(notes = fopen(words[1], "a")) || !(authority = fopen(words[2], "w")))
        return 2;
    if (number == 4 && (store = open(words[3], O_RDWR | O_CREAT, 0600)) < 0)
        return 2;
    IceSetIOErrorHandler(on_io_error);
    IceAddConnectionWatch(on_link, NULL);
    if (!SmsInitialize("peers", "1", on_client, NULL, NULL, sizeof error, error)
        || !IceListenForConnections(&doors, &listeners, sizeof error, error) || doors > MOST) {
        fprintf(stderr, "libsm_manager: %s\n", error);
        return 1;
    }
    let_in(doors, listeners, authority);
    fclose(authority);
    printf("SESSION_MANAGER=%s\n", IceComposeNetworkIdList(doors, listeners));
    fflush(stdout);
    serve(doors, listeners);
    IceFreeListenObjs(doors, listeners);
    return fclose(notes) != 0;
}
