/* Sends pieces of 32 KiB from one thread to another over TCP on the loopback address: `pour PIECES`. */
#include <arpa/inet.h>
#include <netinet/in.h>
#include <netinet/tcp.h>
#include <pthread.h>
#include <stdlib.h>
#include <sys/socket.h>
#include <unistd.h>

enum { PIECE = 32768 };

static int ends[2];

static void *drink(void *taken) {
    static char into[PIECE];
    ssize_t got;
    while ((got = read(ends[1], into, PIECE)) > 0)
        *(unsigned long *)taken += got;
    return NULL;
}

static int connect_ends(void) {
    struct sockaddr_in address = {.sin_family = AF_INET, .sin_addr.s_addr = htonl(INADDR_LOOPBACK)};
    socklen_t length = sizeof address;
    int one = 1, listener = socket(AF_INET, SOCK_STREAM, 0);
    ends[0] = socket(AF_INET, SOCK_STREAM, 0);
    if (bind(listener, (struct sockaddr *)&address, length) < 0 || listen(listener, 1) < 0)
        return -1;
    if (getsockname(listener, (struct sockaddr *)&address, &length) < 0)
        return -1;
    if (connect(ends[0], (struct sockaddr *)&address, length) < 0)
        return -1;
    ends[1] = accept(listener, NULL, NULL);
    for (int end = 0; end < 2; end++)
        setsockopt(ends[end], IPPROTO_TCP, TCP_NODELAY, &one, sizeof one);
    return close(listener);
}

int main(int count, char **words) {
    static char piece[PIECE];
    unsigned long taken = 0;
    pthread_t reader;
    if (count != 3)
        return 2;
    if (connect_ends() < 0 || pthread_create(&reader, NULL, drink, &taken) != 0)
        return 1;
    unsigned long pieces = strtoul(words[2], NULL, 10);
    for (unsigned long sent = 0; sent < pieces; sent++)
        for (ssize_t done = 0, put; done < PIECE; done += put)
            if ((put = write(ends[0], piece + done, PIECE - done)) < 0)
                return 1;
    close(ends[0]);
    pthread_join(reader, NULL);
    return taken != pieces * PIECE;
}
