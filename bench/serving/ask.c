// Asks a server over one Unix link: sends a frame, reads the reply's frame, COUNT times, and prints nanoseconds a request.
// ask PATH FRAME-FILE COUNT
#include <stdio.h>
#include <stdlib.h>
#include <string.h>
#include <sys/socket.h>
#include <sys/un.h>
#include <time.h>
#include <unistd.h>

static void fail(const char *what) {
    perror(what);
    exit(1);
}

static void read_all(int link, unsigned char *to, size_t count) {
    while (count > 0) {
        ssize_t got = read(link, to, count);
        if (got <= 0) fail("read");
        to += got;
        count -= (size_t)got;
    }
}

int main(int argc, char **argv) {
    if (argc != 4) return 2;
    static unsigned char frame[1 << 20], reply[1 << 25];
    FILE *file = fopen(argv[2], "rb");
    if (!file) fail("open");
    size_t length = fread(frame, 1, sizeof frame, file);
    fclose(file);
    long count = atol(argv[3]);
    struct sockaddr_un addr = {.sun_family = AF_UNIX};
    strncpy(addr.sun_path, argv[1], sizeof addr.sun_path - 1);
    int link = socket(AF_UNIX, SOCK_STREAM, 0);
    if (connect(link, (struct sockaddr *)&addr, sizeof addr)) fail("connect");
    struct timespec begun, ended;
    clock_gettime(CLOCK_MONOTONIC, &begun);
    for (long i = 0; i < count; i++) {
        if (write(link, frame, length) != (ssize_t)length) fail("write");
        read_all(link, reply, 4);
        size_t payload = (size_t)reply[0] << 24 | (size_t)reply[1] << 16 | (size_t)reply[2] << 8 | reply[3];
        read_all(link, reply + 4, payload);
    }
    clock_gettime(CLOCK_MONOTONIC, &ended);
    printf("%.0f\n", ((double)(ended.tv_sec - begun.tv_sec) * 1e9 + (double)(ended.tv_nsec - begun.tv_nsec)) / (double)count);
    return 0;
}
