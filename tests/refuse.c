/* A malloc that refuses the request whose number REFUSED_REQUEST names, counted from 1. Where MARKED_SIZE names a size, a
   request of that size is a mark, and each request between the first mark and the second is refused, between the third and
   the fourth, and so on. Each refused request adds a byte to the file that REFUSED_FILE names. At the end the file that
   REQUESTS_FILE names is told how many requests there were; a program that ends by _exit tells nothing.

   If EACH_FILE names a file, each request is refused in a child of its own, which runs to its end while the program waits; then the
   program gets the memory and goes on. So one run refuses each request in turn. The file gets what each child prints, and a line with
   its status. The program must have one thread, and a standard input that can be read again. */
#include <errno.h>
#include <fcntl.h>
#include <stddef.h>
#include <stdio.h>
#include <stdlib.h>
#include <sys/wait.h>
#include <unistd.h>

extern void *__libc_malloc(size_t size);
extern void *__libc_realloc(void *old, size_t size);

static unsigned long requests;
static unsigned long marks;
static int is_child;

/* The number that the environment has under this name, or 0. */
static unsigned long number_of(const char *name)
{
    const char *number = getenv(name);
    return number ? strtoul(number, NULL, 10) : 0;
}

/* Whether the request is no mark, and the number of those before it is odd. */
static int is_between_marks(size_t size)
{
    unsigned long marked = number_of("MARKED_SIZE");
    if (marked && size == marked) {
        __atomic_add_fetch(&marks, 1, __ATOMIC_RELAXED);
        return 0;
    }
    return __atomic_load_n(&marks, __ATOMIC_RELAXED) % 2;
}

static void tell_refused(void)
{
    const char *name = getenv("REFUSED_FILE");
    int file = name ? open(name, O_CREAT | O_WRONLY | O_APPEND, 0600) : -1;
    if (file >= 0 && write(file, ".", 1) == 1)
        close(file);
}

/* Makes this process a child whose output goes to the file. */
static void begin_child(int file)
{
    int nowhere = open("/dev/null", O_WRONLY);
    is_child = 1;
    dup2(file, STDOUT_FILENO);
    dup2(nowhere, STDERR_FILENO);
    close(nowhere);
    close(file);
}

/* Waits for the child, tells its status (256 and above: the signal that ended it), and reads the input again from this place. It makes
   no request for memory, which dprintf would. */
static void end_child(pid_t child, int file, off_t place)
{
    char line[32];
    int status = 0;
    waitpid(child, &status, 0);
    int length = snprintf(line, sizeof line, "status %d\n", WIFEXITED(status) ? WEXITSTATUS(status) : 256 + WTERMSIG(status));
    if (write(file, line, length) != length)
        abort();
    close(file);
    lseek(STDIN_FILENO, place, SEEK_SET);
}

/* Goes on in two processes: whether this is the child, in which the request is refused. */
static int is_refused_in_child(const char *name)
{
    off_t place = lseek(STDIN_FILENO, 0, SEEK_CUR);
    int file = open(name, O_CREAT | O_WRONLY | O_APPEND, 0600);
    pid_t child = file < 0 ? -1 : fork();
    if (child < 0)
        abort();
    if (child == 0)
        begin_child(file);
    else
        end_child(child, file, place);
    return child == 0;
}

static int is_refused(size_t size)
{
    unsigned long request = __atomic_add_fetch(&requests, 1, __ATOMIC_RELAXED);
    const char *each = getenv("EACH_FILE");
    if (each)
        return !is_child && is_refused_in_child(each);
    if (request != number_of("REFUSED_REQUEST") && !is_between_marks(size))
        return 0;
    tell_refused();
    return 1;
}

void *malloc(size_t size)
{
    if (is_refused(size)) {
        errno = ENOMEM;
        return NULL;
    }
    return __libc_malloc(size);
}

void *realloc(void *old, size_t size)
{
    if (is_refused(size)) {
        errno = ENOMEM;
        return NULL;
    }
    return __libc_realloc(old, size);
}

__attribute__((destructor)) static void tell(void)
{
    const char *name = getenv("REQUESTS_FILE");
    unsigned long counted = requests;
    FILE *file = name && !is_child ? fopen(name, "w") : NULL;
    if (file) {
        fprintf(file, "%lu\n", counted);
        fclose(file);
    }
}
