/* Processes and signals that share a client: each answer is that of its call, or there is none. */
#include "../bpfmap_client.h"
#include "server.h"
#include "played.h"
#include "secrets.h"

enum { CALLS = 400, CHILDREN = 4, LITTLE_TIME = 300 };

static struct bpfmap_client client;
static struct bpfmap_program sum;

static void get_secret(unsigned number)
{
    struct bpfmap_reply reply;
    CHECK_STATUS(&client, BPFMAP_OK, bpfmap_get(&client, name_of(number), &reply));
    check_secret(number, &reply);
}

static void get_in_pipeline(unsigned first, unsigned count)
{
    struct bpfmap_reply reply;
    struct bpfmap_request request = bpfmap_request_of(BPFMAP_GET);
    for (unsigned i = first; i < first + count; i++) {
        request.key = name_of(i);
        CHECK_STATUS(&client, BPFMAP_OK, bpfmap_send(&client, &request));
    }
    for (unsigned i = first; i < first + count; i++) {
        CHECK_STATUS(&client, BPFMAP_OK, bpfmap_receive(&client, &reply));
        check_secret(i, &reply);
    }
}

/* ---- fork */

/* What a child finds: no call of the parent's connection is made, and after bpfmap_reconnect it has one of its own. */
static void be_child(unsigned first, int waiting)
{
    struct bpfmap_reply reply;
    server_process = 0;
    for (int i = 0; i < waiting; i++)
        CHECK_STATUS(&client, BPFMAP_FORKED, bpfmap_receive(&client, &reply));
    for (unsigned i = 0; i < CALLS; i++) {
        CHECK_STATUS(&client, BPFMAP_FORKED, bpfmap_get(&client, name_of(first + i), &reply));
        CHECK(reply.kind == BPFMAP_NO_ANSWER && reply.value[0] == 0, "a child has an answer");
    }
    CHECK(strstr(bpfmap_explain(&client, BPFMAP_FORKED), "another process"), "%s", bpfmap_explain(&client, BPFMAP_FORKED));
    CHECK_STATUS(&client, BPFMAP_OK, bpfmap_reconnect(&client));
    for (unsigned i = 0; i < CALLS; i++)
        get_secret(first + i);
    bpfmap_close(&client);
    exit(0);
}

/* The parent's own calls go on while its children are refused; it has so many requests in its buffer when they begin. */
static void children_are_refused(int waiting)
{
    pid_t children[CHILDREN];
    struct bpfmap_request request = bpfmap_request_of(BPFMAP_GET);
    struct bpfmap_reply reply;
    request.key = bpfmap_text("name 7");
    for (int i = 0; i < waiting; i++)
        CHECK_STATUS(&client, BPFMAP_OK, bpfmap_send(&client, &request));
    for (int i = 0; i < CHILDREN; i++) {
        children[i] = fork();
        if (children[i] == 0)
            be_child((unsigned)i * 11, waiting);
    }
    for (int i = 0; i < waiting; i++) {
        CHECK_STATUS(&client, BPFMAP_OK, bpfmap_receive(&client, &reply));
        check_secret(7, &reply);
    }
    for (unsigned i = 0; i < CALLS; i++)
        get_secret(i);
    for (int i = 0; i < CHILDREN; i++) {
        int status = -1;
        waitpid(children[i], &status, 0);
        CHECK(WIFEXITED(status) && WEXITSTATUS(status) == 0, "a child failed");
    }
    get_secret(3);
}

/* ---- signals */

static volatile sig_atomic_t signals, busy, answered;

/* A handler that asks too: it finds the client busy, or gets its own answer. */
static void ask_in_handler(int number)
{
    static struct bpfmap_reply reply;
    int had = errno;
    enum bpfmap_status status = bpfmap_get(&client, bpfmap_text("name 9"), &reply);
    (void)number;
    signals++;
    busy += status == BPFMAP_BUSY;
    if (status == BPFMAP_OK) {
        check_secret(9, &reply);
        answered++;
    }
    CHECK(status == BPFMAP_OK || status == BPFMAP_BUSY || status == BPFMAP_UNREAD || status == BPFMAP_WALKING,
          "a handler gets status %d", (int)status);
    errno = had;
}

/* Sends a signal to this process every so many microseconds, until it is killed. */
static pid_t start_signals(void (*handler)(int), long microseconds)
{
    struct timespec moment = {.tv_nsec = microseconds * 1000};
    struct sigaction action;
    pid_t tested = getpid(), child;
    memset(&action, 0, sizeof action);
    action.sa_handler = handler; /* without SA_RESTART */
    CHECK(sigaction(SIGVTALRM, &action, NULL) == 0, "no handler");
    child = fork();
    if (child != 0)
        return child;
    server_process = 0;
    while (kill(tested, SIGVTALRM) == 0 && getppid() == tested)
        nanosleep(&moment, NULL);
    _exit(0);
}

static void stop_signals(pid_t child)
{
    kill(child, SIGKILL);
    while (waitpid(child, NULL, 0) < 0 && errno == EINTR) {}
    signal(SIGVTALRM, SIG_IGN);
}

static void walk_over_all(void)
{
    struct bpfmap_reply reply;
    enum bpfmap_status status;
    uint64_t items = 0;
    CHECK_STATUS(&client, BPFMAP_OK, bpfmap_begin_for_each(&client, &sum, bpfmap_bytes("\0\0\0\0\0\0\0", 8), 1));
    while ((status = bpfmap_receive(&client, &reply)) == BPFMAP_OK)
        items++;
    CHECK_STATUS(&client, BPFMAP_END, status);
    CHECK(reply.given == items && reply.scanned == NAMES, "%llu items", (unsigned long long)items);
}

static void signals_change_nothing(void)
{
    pid_t child;
    signals = busy = answered = 0;
    child = start_signals(ask_in_handler, 100);
    for (unsigned i = 0; i < 2000 || signals < 100; i++) {
        if (i % 10 == 0)
            walk_over_all();
        get_secret(i);
        if (i % 10 == 5)
            get_in_pipeline(i, 30);
    }
    stop_signals(child);
    CHECK(busy > 0, "no signal came during a call");
    printf("client c: %d signals, %d of them during a call\n", (int)signals, (int)busy);
}

static void count_signal(int number)
{
    (void)number;
    signals++;
}

/* Signals don't make a timeout longer than twice its time. */
static void signals_stretch_no_timeout(void)
{
    struct bpfmap_client silent;
    struct bpfmap_reply reply;
    struct played played = {.play = be_silent, .greets = BPFMAP_VERSION};
    long long begun;
    pid_t child;
    start_played(&played);
    CHECK_STATUS(&silent, BPFMAP_OK, bpfmap_connect(&silent, "127.0.0.1", played.port, LITTLE_TIME));
    signals = 0;
    child = start_signals(count_signal, 2000);
    begun = bpfmap_milliseconds();
    CHECK_STATUS(&silent, BPFMAP_TIMED_OUT, bpfmap_get(&silent, bpfmap_text("a"), &reply));
    CHECK(bpfmap_milliseconds() - begun < 4 * LITTLE_TIME, "the time was over after %lld ms", bpfmap_milliseconds() - begun);
    stop_signals(child);
    CHECK(signals > 10, "only %d signals", (int)signals);
    end_played(&played);
}

int main(void)
{
    sum = sum_program();
    start_server();
    connect_to_server(&client);
    put_secrets(&client);
    children_are_refused(0);
    children_are_refused(5);
    signals_change_nothing();
    signals_stretch_no_timeout();
    bpfmap_close(&client);
    printf("client c: %d children were refused the parent's connection, and had their own\n", 2 * CHILDREN);
    return 0;
}
