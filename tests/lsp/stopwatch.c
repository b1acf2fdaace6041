/* A test tool: `stopwatch pipes|sockets PROGRAM` starts a program, writes it the requests that come
   on standard input, one after another, and tells how long each takes until it is answered. A
   request is a line `LENGTH ANSWER PAUSE` and so many bytes. ANSWER is `none`, `line` or `frame`;
   PAUSE has the microseconds that are waited first. For each request with an answer it prints a
   line: microseconds, from before its first byte is written until the last byte of the answer is
   read, the answer's length, and its last bytes. Nothing of the product is linked to it. */
#define _GNU_SOURCE
#include <stdio.h>
#include <stdlib.h>
#include <string.h>
#include <sys/socket.h>
#include <time.h>
#include <unistd.h>

enum { TAIL = 40 };

static char answer[1 << 24];

static void fail(const char *what) {
    perror(what);
    exit(2);
}

static double microseconds(void) {
    struct timespec now;
    clock_gettime(CLOCK_MONOTONIC, &now);
    return now.tv_sec * 1e6 + now.tv_nsec / 1e3;
}

/* The two ends of a way to the program: what is written to the first is read from the second. */
static void connect_ends(int ends[2], int by_sockets) {
    int both[2];
    if (by_sockets ? socketpair(AF_UNIX, SOCK_STREAM, 0, both) : pipe(both)) fail("no way to it");
    ends[0] = both[1];
    ends[1] = both[0];
}

/* Starts the program: `into` is its input, `out` its output. */
static void start(const char *program, int by_sockets, int *into, int *out) {
    int input[2], output[2];
    connect_ends(input, by_sockets);
    connect_ends(output, by_sockets);
    pid_t child = fork();
    if (child < 0) fail("fork");
    if (child == 0) {
        dup2(input[1], 0);
        dup2(output[0], 1);
        close(input[0]);
        close(output[1]);
        execlp(program, program, (char *)NULL);
        fail(program);
    }
    close(input[1]);
    close(output[0]);
    *into = input[0];
    *out = output[1];
}

static void write_all(int file, const char *bytes, size_t length) {
    while (length > 0) {
        ssize_t count = write(file, bytes, length);
        if (count <= 0) fail("write");
        bytes += count;
        length -= count;
    }
}

/* How long the frame is that begins with these bytes, or 0 where more must tell. */
static size_t frame_length(size_t got) {
    char *end = memmem(answer, got, "\r\n\r\n", 4);
    if (!end) return 0;
    return end + 4 - answer + strtoul(answer + strlen("Content-Length:"), NULL, 10);
}

static int is_whole(const char *kind, size_t got) {
    if (got == 0) return 0;
    if (strcmp(kind, "line") == 0) return answer[got - 1] == '\n';
    size_t wanted = frame_length(got);
    return wanted > 0 && got >= wanted;
}

static size_t read_answer(int file, const char *kind) {
    size_t got = 0;
    while (!is_whole(kind, got)) {
        ssize_t count = read(file, answer + got, sizeof answer - got);
        if (count <= 0) fail("read");
        got += count;
    }
    return got;
}

static void tell(double took, size_t length) {
    size_t tail = length < TAIL ? length : TAIL;
    printf("%.1f %zu ", took, length);
    for (size_t i = length - tail; i < length; i++) putchar(answer[i] < ' ' ? ' ' : answer[i]);
    putchar('\n');
}

int main(int count, char **words) {
    int into, out;
    size_t length;
    char kind[8], *request = NULL;
    unsigned pause;
    if (count != 3) return 2;
    start(words[2], strcmp(words[1], "sockets") == 0, &into, &out);
    while (scanf("%zu %7s %u", &length, kind, &pause) == 3 && getchar() == '\n') {
        request = realloc(request, length + 1);
        if (!request || fread(request, 1, length, stdin) != length) fail("request");
        if (pause > 0) usleep(pause);
        double begin = microseconds();
        write_all(into, request, length);
        if (strcmp(kind, "none") == 0) continue;
        size_t got = read_answer(out, kind);
        tell(microseconds() - begin, got);
    }
    return 0;
}
