// A bare server to measure beside: reads a frame, writes a reply of SIZE payload bytes, over one Unix link after the other.
// echo PATH SIZE
#include <stdio.h>
#include <stdlib.h>
#include <string.h>
#include <sys/socket.h>
#include <sys/un.h>
#include <unistd.h>

static int read_all(int link, unsigned char *to, size_t count) {
    while (count > 0) {
        ssize_t got = read(link, to, count);
        if (got <= 0) return 0;
        to += got;
        count -= (size_t)got;
    }
    return 1;
}

int main(int argc, char **argv) {
    if (argc != 3) return 2;
    static unsigned char frame[1 << 20], reply[1 << 25];
    size_t size = (size_t)atol(argv[2]);
    reply[0] = (unsigned char)(size >> 24);
    reply[1] = (unsigned char)(size >> 16);
    reply[2] = (unsigned char)(size >> 8);
    reply[3] = (unsigned char)size;
    struct sockaddr_un addr = {.sun_family = AF_UNIX};
    strncpy(addr.sun_path, argv[1], sizeof addr.sun_path - 1);
    int listener = socket(AF_UNIX, SOCK_STREAM, 0);
    if (bind(listener, (struct sockaddr *)&addr, sizeof addr) || listen(listener, 16)) {
        perror("listen");
        return 1;
    }
    puts("ready");
    fflush(stdout);
    for (;;) {
        int link = accept(listener, 0, 0);
        while (read_all(link, frame, 4)) {
            size_t payload = (size_t)frame[0] << 24 | (size_t)frame[1] << 16 | (size_t)frame[2] << 8 | frame[3];
            if (payload > sizeof frame || !read_all(link, frame, payload)) break;
            if (write(link, reply, size + 4) != (ssize_t)(size + 4)) break;
        }
        close(link);
    }
}
