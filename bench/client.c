/* A client of `hgd serve` that is fast: client PORT SOURCE EVENTS WINDOW AHEAD. It sends EVENTS writes of thread 0 in windows, each with an
   Ask behind it, and reads the replies of a window once AHEAD windows are under way. Status 1 where a reply is not what it should be. */
#include <arpa/inet.h>
#include <netinet/tcp.h>
#include <stdio.h>
#include <stdlib.h>
#include <string.h>
#include <unistd.h>

static void put(unsigned char *to, unsigned long value, int bytes) {
    while (bytes--) {
        to[bytes] = (unsigned char)value;
        value >>= 8;
    }
}

static int read_all(int s, unsigned char *to, size_t size) {
    while (size) {
        ssize_t got = read(s, to, size);
        if (got <= 0)
            return 0;
        to += got;
        size -= (size_t)got;
    }
    return 1;
}

static int write_all(int s, const unsigned char *from, size_t size) {
    while (size) {
        ssize_t put = write(s, from, size);
        if (put <= 0)
            return 0;
        from += put;
        size -= (size_t)put;
    }
    return 1;
}

/* Sends the window of events from `number` on, and the Ask. */
static int send_window(int s, unsigned char *out, unsigned long source, unsigned long number, unsigned long n) {
    unsigned char *to = out;
    for (unsigned long i = number - 1; i < number - 1 + n; i++, to += 23) {
        memset(to, 0, 23);
        to[1] = 21, to[2] = 2, to[11] = 7, to[22] = 4;
        put(to + 3, i + 1, 8);
        put(to + 14, 4096 + source * 65536 + i % 4096 * 4, 8);
    }
    memcpy(to, "\0\1\3", 3);
    return write_all(s, out, (size_t)(to + 3 - out));
}

/* Reads the replies of a window: Accepted for each event, and an Ack. */
static int read_window(int s, unsigned char *in, unsigned long n) {
    if (!read_all(s, in, n * 11 + 11))
        return 0;
    for (unsigned long i = 0; i <= n; i++)
        if (in[i * 11 + 2] != (i < n ? 0x82 : 0x85))
            return 0;
    return 1;
}

int main(int count, char **words) {
    if (count != 6)
        return 4;
    struct sockaddr_in at = {.sin_family = AF_INET, .sin_port = htons((unsigned short)atoi(words[1]))};
    at.sin_addr.s_addr = htonl(INADDR_LOOPBACK);
    unsigned long source = strtoul(words[2], 0, 10), events = strtoul(words[3], 0, 10), window = strtoul(words[4], 0, 10);
    unsigned long ahead = strtoul(words[5], 0, 10), sent = 0, answered = 0;
    unsigned char *out = malloc(window * 23 + 3), *in = malloc(window * 11 + 11), hello[5] = {0, 3, 1};
    int one = 1, s = socket(AF_INET, SOCK_STREAM, 0);
    if (!window || !ahead || !out || !in || connect(s, (struct sockaddr *)&at, sizeof at))
        return 1;
    setsockopt(s, IPPROTO_TCP, TCP_NODELAY, &one, sizeof one);
    put(hello + 3, source, 2);
    if (!write_all(s, hello, 5) || !read_all(s, in, 11))
        return 1;
    while (answered < events) {
        if (sent < events && sent - answered < ahead * window) {
            unsigned long n = events - sent < window ? events - sent : window;
            if (!send_window(s, out, source, sent + 1, n))
                return 1;
            sent += n;
        } else {
            unsigned long n = events - answered < window ? events - answered : window;
            if (!read_window(s, in, n))
                return 1;
            answered += n;
        }
    }
    write_all(s, (const unsigned char *)"\0\1\5", 3);
    close(s);
    return 0;
}
