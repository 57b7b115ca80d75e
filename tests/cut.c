/* Streams that are cut. A read gives at most as many bytes as READ_AT_MOST says; where READ_FAILS is set, standard input fails where
   it would end. The sockets take as many bytes in all as SENT_AT_MOST says; then one send fails, and those behind it are made. */
#define _GNU_SOURCE
#include <errno.h>
#include <stdlib.h>
#include <sys/socket.h>
#include <sys/syscall.h>
#include <unistd.h>

/* What the environment says, unless that is nothing. */
static const char *told(const char *name)
{
    const char *text = getenv(name);
    return text && *text ? text : NULL;
}

ssize_t read(int file, void *bytes, size_t count)
{
    const char *number = told("READ_AT_MOST");
    size_t most = number ? strtoul(number, NULL, 10) : count;
    ssize_t given = syscall(SYS_read, file, bytes, count < most ? count : most);
    if (given == 0 && count > 0 && file == STDIN_FILENO && told("READ_FAILS")) {
        errno = EIO;
        return -1;
    }
    return given;
}

ssize_t send(int file, const void *bytes, size_t count, int flags)
{
    static size_t sent;
    static int has_failed;
    const char *number = told("SENT_AT_MOST");
    if (number && !has_failed && count > 0) {
        size_t room = strtoul(number, NULL, 10) - sent;
        if (room == 0) {
            has_failed = 1;
            errno = EPIPE;
            return -1;
        }
        if (count > room)
            count = room;
        sent += count;
    }
    return syscall(SYS_sendto, file, bytes, count, flags, NULL, 0);
}
