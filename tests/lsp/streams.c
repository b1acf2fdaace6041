/* A test tool, preloaded before a program: the read of standard input whose number FAIL_READ gives
   fails, and so does the write to standard output of FAIL_WRITE. A write takes at most the bytes of
   SHORT_WRITE, and from that of NO_WRITE on none. Where CALLS names a file, the numbers of reads and
   writes are written there at the end. Nothing of the product is linked to it. */
#define _GNU_SOURCE
#include <dlfcn.h>
#include <errno.h>
#include <stdio.h>
#include <stdlib.h>
#include <unistd.h>

static long reads, writes;

static long number_of(const char *name) {
    const char *number = getenv(name);
    return number ? atol(number) : 0;
}

ssize_t read(int file, void *bytes, size_t size) {
    static ssize_t (*real)(int, void *, size_t);
    if (!real) real = dlsym(RTLD_NEXT, "read");
    if (file == 0 && ++reads == number_of("FAIL_READ")) {
        errno = EIO;
        return -1;
    }
    return real(file, bytes, size);
}

ssize_t write(int file, const void *bytes, size_t size) {
    static ssize_t (*real)(int, const void *, size_t);
    long most = number_of("SHORT_WRITE"), none = number_of("NO_WRITE");
    if (!real) real = dlsym(RTLD_NEXT, "write");
    if (file == 1 && ++writes == number_of("FAIL_WRITE")) {
        errno = EIO;
        return -1;
    }
    if (file == 1 && none && writes >= none) return 0;
    return real(file, bytes, file == 1 && most && size > (size_t)most ? (size_t)most : size);
}

__attribute__((destructor)) static void tell(void) {
    const char *path = getenv("CALLS");
    long counts[] = {reads, writes};
    if (!path) return;
    FILE *file = fopen(path, "w");
    if (file) {
        fprintf(file, "%ld %ld\n", counts[0], counts[1]);
        fclose(file);
    }
}
