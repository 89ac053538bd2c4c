/* A plain loop that an origin's ingest is compared with. It accepts one PUT over one connection in reads of 64 KiB, and keeps the
   bytes in blocks of UNIT bytes: all of them, or the last BLOCKS. It doesn't parse them.

       plain PORT UNIT [BLOCKS] */
#define _GNU_SOURCE
#include <netinet/in.h>
#include <stdlib.h>
#include <string.h>
#include <sys/socket.h>

static char buffer[65536];

int main(int count, char **words) {
    if (count != 3 && count != 4) return 2;
    size_t unit = strtoul(words[2], 0, 10), filled = unit, rest = 0, blocks = count == 4 ? strtoul(words[3], 0, 10) : 0, at = 0;
    char **last = calloc(blocks + 1, sizeof *last);
    int one = 1, listener = socket(AF_INET, SOCK_STREAM, 0);
    struct sockaddr_in address = { .sin_family = AF_INET, .sin_port = htons(atoi(words[1])) };
    address.sin_addr.s_addr = htonl(INADDR_LOOPBACK);
    setsockopt(listener, SOL_SOCKET, SO_REUSEADDR, &one, sizeof one);
    if (bind(listener, (struct sockaddr *)&address, sizeof address) || listen(listener, 1)) return 1;
    int peer = accept(listener, 0, 0);
    char *kept = 0;
    for (int first = 1; first || rest > 0; first = 0) {
        ssize_t got = recv(peer, buffer, sizeof buffer, 0);
        if (got <= 0) return 1;
        char *from = buffer;
        if (first) {
            char *length = memmem(buffer, got, "Length: ", 8), *end = memmem(buffer, got, "\r\n\r\n", 4);
            if (!length || !end) return 1;
            rest = strtoul(length + 8, 0, 10);
            from = end + 4;
        }
        for (char *stop = buffer + got; from < stop;) {
            if (filled == unit) {
                kept = malloc(unit);
                filled = 0;
                if (blocks) {
                    free(last[at]);
                    last[at] = kept;
                    at = (at + 1) % blocks;
                }
            }
            size_t piece = unit - filled < (size_t)(stop - from) ? unit - filled : (size_t)(stop - from);
            memcpy(kept + filled, from, piece);
            filled += piece;
            from += piece;
            rest -= piece;
        }
    }
    return send(peer, "HTTP/1.1 200 OK\r\nContent-Length: 0\r\n\r\n", 38, 0) != 38;
}
