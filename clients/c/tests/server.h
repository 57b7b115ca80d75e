/* For the tests: checks that end a test at the first difference, and a server of its own for each. Included after
 * bpfmap_client.h. */
#ifndef SERVER_H
#define SERVER_H

#include <signal.h>
#include <stdio.h>
#include <stdlib.h>
#include <sys/wait.h>

enum { TIMEOUT = 60000, LONGEST_TEST_SECONDS = 100 };

/* The server that runs, and the port it listens on. */
static pid_t server_process;
static char server_port[8];

/* Ends the test with a line, unless this holds. */
#define CHECK(holds, ...)                                                                                              \
    do {                                                                                                               \
        if (!(holds)) {                                                                                                \
            fprintf(stderr, "client c, %s:%d: ", __FILE__, __LINE__);                                                  \
            fprintf(stderr, __VA_ARGS__);                                                                              \
            fprintf(stderr, "\n");                                                                                     \
            exit(1);                                                                                                   \
        }                                                                                                              \
    } while (0)

#define CHECK_STATUS(client, wanted, call)                                                                             \
    do {                                                                                                               \
        enum bpfmap_status came = (call);                                                                              \
        CHECK(came == (wanted), "%s: status %d, %s", #call, (int)came, bpfmap_explain((client), came));                \
    } while (0)

static inline void stop_server(void)
{
    if (server_process > 0) {
        kill(server_process, SIGKILL);
        waitpid(server_process, NULL, 0);
    }
    server_process = 0;
}

static inline void end_late_test(int number)
{
    static const char line[] = "client c: a test took too long\n";
    (void)number;
    if (server_process > 0)
        kill(server_process, SIGKILL);
    if (write(STDERR_FILENO, line, sizeof line - 1) < 0)
        _exit(2);
    _exit(1);
}

/* In the child: the server in place of this process, with both its streams read by the parent. */
static inline void become_server(int output, int errors)
{
    const char *program = getenv("MAPD");
    if (program && dup2(output, STDOUT_FILENO) >= 0 && dup2(errors, STDERR_FILENO) >= 0)
        execl(program, program, "--listen", "127.0.0.1:0", "--workers", "16", (char *)NULL);
    _exit(127);
}

/* The next line that comes, without its end; a text of no bytes where none comes. */
static inline void read_line(int from, char *line, size_t room)
{
    size_t length = 0;
    while (length + 1 < room && read(from, line + length, 1) == 1 && line[length] != '\n')
        length++;
    line[length] = 0;
}

/* Starts the server that MAPD names on a free port. It ends with the test. */
static inline void start_server(void)
{
    int output[2], errors[2];
    char line[200], *colon;
    CHECK(pipe(output) == 0 && pipe(errors) == 0, "no pipe");
    server_process = fork();
    if (server_process == 0)
        become_server(output[1], errors[1]);
    close(output[1]);
    close(errors[1]);
    atexit(stop_server);
    signal(SIGALRM, end_late_test);
    alarm(LONGEST_TEST_SECONDS);
    read_line(errors[0], line, sizeof line);
    colon = strrchr(line, ':');
    CHECK(colon && strlen(colon + 1) < sizeof server_port, "the server did not tell its port, but '%s'", line);
    strcpy(server_port, colon + 1);
    read_line(output[0], line, sizeof line);
    CHECK(strcmp(line, "ready") == 0, "the server did not say ready, but '%s'", line);
}

static inline void connect_to_server(struct bpfmap_client *client)
{
    CHECK_STATUS(client, BPFMAP_OK, bpfmap_connect(client, "127.0.0.1", server_port, TIMEOUT));
}

static inline void connect_by_version(struct bpfmap_client *client, int version)
{
    CHECK_STATUS(client, BPFMAP_OK, bpfmap_connect_version(client, "127.0.0.1", server_port, TIMEOUT, version));
}

/* The program of sums: it adds its argument to the old value. */
static const uint8_t sum_code[] = {
    0x79, 0x20, 0, 0, 0, 0, 0, 0, /* ldd r0, [r2+0] */
    0x79, 0x39, 0, 0, 0, 0, 0, 0, /* ldd r9, [r3+0] */
    0x0f, 0x90, 0, 0, 0, 0, 0, 0, /* add64 r0, r9 */
    0x7b, 0x04, 0, 0, 0, 0, 0, 0, /* stxd [r4+0], r0 */
    0xb7, 0x00, 0, 0, 8, 0, 0, 0, /* mov64 r0, 8 */
    0x95, 0x00, 0, 0, 0, 0, 0, 0  /* exit */
};

static inline struct bpfmap_program sum_program(void)
{
    return bpfmap_program_of(bpfmap_windows(64, 8, 8, 8), bpfmap_bytes(sum_code, sizeof sum_code));
}

#endif
