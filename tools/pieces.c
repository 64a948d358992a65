// pieces SIZE: copies standard input to standard output, a pipe, SIZE bytes at a time, and writes no piece before the one before it has
// been read. So each read of the program behind the pipe gets one piece at most.
#include <poll.h>
#include <sched.h>
#include <stdlib.h>
#include <sys/ioctl.h>
#include <unistd.h>

// Waits until all that was written has been read; 0 if nobody reads any more.
static int is_read(void)
{
    struct pollfd reader = {.fd = STDOUT_FILENO, .events = 0};
    int unread;
    for (;;) {
        if (poll(&reader, 1, 0) != 0 || ioctl(STDOUT_FILENO, FIONREAD, &unread) != 0)
            return 0;
        if (unread == 0)
            return 1;
        sched_yield();
    }
}

int main(int count, char **words)
{
    char piece[4096];
    size_t size = count == 2 ? strtoul(words[1], NULL, 10) : 0;
    if (size == 0 || size > sizeof piece)
        return 2;
    for (;;) {
        ssize_t got = read(STDIN_FILENO, piece, size);
        if (got <= 0)
            return got < 0;
        if (write(STDOUT_FILENO, piece, got) != got || !is_read())
            return 1;
    }
}
