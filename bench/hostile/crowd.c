/* Crowds of WebSocket clients, for flood.py: those of Python don't keep up with what a flood sends them.
 *
 *     crowd KIND PORTS CHANNEL COUNT SIZE IN_FLIGHT GAP
 *
 * PORTS are joined by commas, and the clients spread over them. KIND is
 *   reads   each follows CHANNEL and reads what comes
 *   floods  each publishes SIZE bytes to CHANNEL as fast as it is answered, IN_FLIGHT at a time, and follows the channel `flooders`; at the
 *           end its connection is reset
 *   returns the same one at a time, and once it is answered with a new connection, which isn't reset
 *   asks    each follows a channel of its own and publishes SIZE bytes there each GAP milliseconds, one at a time
 * All answer each ping. It prints `ready` once all are connected, begins once a line comes on standard input, and at the end of that prints
 * one line: replies, the longest wait for one in milliseconds, connections that ended, their codes (0 if none came), texts that were
 * read, errors among the replies. What still waits for a reply then counts by how long it has waited. */
#define _GNU_SOURCE
#include <arpa/inet.h>
#include <errno.h>
#include <fcntl.h>
#include <netinet/tcp.h>
#include <poll.h>
#include <stdio.h>
#include <stdlib.h>
#include <string.h>
#include <sys/epoll.h>
#include <sys/socket.h>
#include <time.h>
#include <unistd.h>

enum { HEAD = 14, KEPT = 64, ROOM = 1 << 18, MOST_CODES = 64 };

struct frame { char *bytes; size_t length; };

struct client {
    int socket, port, code, is_over, is_going, is_writing, comes_anew;
    struct frame hello, work;       /* what introduces it, and what it publishes */
    const struct frame *writing;    /* what is being written, and how much of it was */
    size_t written;
    int hellos, works, pongs;       /* how often each is still to be written */
    int greeted, in_flight;
    double asked, due;              /* when its last publish was sent, and when its next one is */
    int is_shaken, line_feeds;      /* of the handshake's answer */
    unsigned char head[HEAD], kept[KEPT];
    size_t in_head, in_body, body, kept_count;
};

static const struct frame pong = {"\x81\x82\0\0\0\0{}", 8};
static char room[ROOM];
static struct client *clients;
static int count, poll_at, most_in_flight, is_asking, is_flooding, is_returning, greetings;
static double gap, longest;
static long replies, ended, texts, errors;
static int codes[MOST_CODES];

static double now(void) {
    struct timespec t;
    clock_gettime(CLOCK_MONOTONIC, &t);
    return t.tv_sec * 1e3 + t.tv_nsec / 1e6;
}

static void fail(const char *why) { perror(why); exit(1); }

/* One masked text, whose mask is 0 (RFC 6455, 5.2). */
static struct frame frame_of(const char *text, size_t length) {
    struct frame made = {malloc(length + HEAD), 0};
    unsigned char *at = (unsigned char *)made.bytes;
    *at++ = 0x81;
    if (length < 126) *at++ = 0x80 | length;
    else if (length < 65536) { *at++ = 0xFE; *at++ = length >> 8; *at++ = length; }
    else { *at++ = 0xFF; for (int shift = 56; shift >= 0; shift -= 8) *at++ = (unsigned long)length >> shift; }
    memset(at, 0, 4);
    memcpy(at + 4, text, length);
    made.length = (char *)at + 4 + length - made.bytes;
    return made;
}

static void over(struct client *it) {
    if (it->is_over) return;
    if (it->in_flight && is_asking && now() - it->asked > longest) longest = now() - it->asked;
    it->is_over = 1;
    if (ended < MOST_CODES) codes[ended] = it->code;
    ended++;
    close(it->socket);
}

static void write_on(struct client *it) {
    while (!it->is_over) {
        if (!it->writing) {
            it->written = 0;
            if (it->pongs) { it->pongs--; it->writing = &pong; }
            else if (it->hellos) { it->hellos--; it->writing = &it->hello; }
            else if (it->works) { it->works--; it->writing = &it->work; if (is_asking) it->asked = now(); }
            else return;
        }
        ssize_t sent = send(it->socket, it->writing->bytes + it->written, it->writing->length - it->written, MSG_NOSIGNAL);
        if (sent < 0) { if (errno != EAGAIN) over(it); return; }
        it->written += sent;
        if (it->written == it->writing->length) it->writing = NULL;
    }
}

static void answered(struct client *it) {
    if (it->greeted < 2) {
        it->greeted++, greetings++;
        if (is_returning && it->is_going && it->greeted == 2) it->works = it->in_flight = 1;
        return;
    }
    replies++;
    it->in_flight--;
    if (!memcmp(it->kept, "{\"error\"", 8)) errors++;
    if (is_asking) { double wait = now() - it->asked; if (wait > longest) longest = wait; }
    else if (is_returning) it->comes_anew = 1;
    else if (is_flooding && it->is_going) { it->works++; it->in_flight++; }
}

static void heard(struct client *it) {
    int kind = it->head[0] & 15;
    if (kind == 8) it->code = it->kept_count < 2 ? 0 : it->kept[0] << 8 | it->kept[1];
    if (kind != 1) return;
    texts++;
    if (it->body == 2) it->pongs++;
    else if (it->kept_count > 6 && memcmp(it->kept, "{\"push\"", 7)) answered(it);
}

/* Takes what came apart into messages, of which the first bytes are kept. */
static void take(struct client *it, const char *bytes, size_t length) {
    size_t at = 0;
    while (!it->is_shaken && at < length) {
        char byte = bytes[at++];
        if (byte == '\n') { if (++it->line_feeds == 2) it->is_shaken = 1; }
        else if (byte != '\r') it->line_feeds = 0;
        if (it->is_shaken) it->hellos = 1;
    }
    while (at < length) {
        size_t wide = it->in_head < 2 ? 2 : (it->head[1] & 127) == 126 ? 4 : (it->head[1] & 127) == 127 ? 10 : 2;
        if (it->in_head < wide) {
            it->head[it->in_head++] = bytes[at++];
            wide = it->in_head < 2 ? 2 : (it->head[1] & 127) == 126 ? 4 : (it->head[1] & 127) == 127 ? 10 : 2;
            if (it->in_head < wide) continue;
            it->body = wide == 2 ? it->head[1] & 127 : 0;
            for (size_t i = 2; i < wide; i++) it->body = it->body << 8 | it->head[i];
            it->in_body = it->kept_count = 0;
        }
        size_t part = it->body - it->in_body < length - at ? it->body - it->in_body : length - at;
        size_t keep = KEPT - it->kept_count < part ? KEPT - it->kept_count : part;
        memcpy(it->kept + it->kept_count, bytes + at, keep);
        it->kept_count += keep, it->in_body += part, at += part;
        if (it->in_body == it->body) { heard(it); it->in_head = 0; }
    }
}

static void read_on(struct client *it) {
    for (int i = 0; i < 8 && !it->is_over; i++) {
        ssize_t got = recv(it->socket, room, ROOM, 0);
        if (got < 0 && errno == EAGAIN) break;
        if (got <= 0) over(it);
        else take(it, room, got);
    }
    write_on(it);
}

static void watch(struct client *it) {
    int wants = it->writing || it->works || it->pongs || it->hellos;
    if (it->is_over || wants == it->is_writing) return;
    struct epoll_event event = {.events = EPOLLIN | (wants ? EPOLLOUT : 0), .data.ptr = it};
    epoll_ctl(poll_at, EPOLL_CTL_MOD, it->socket, &event);
    it->is_writing = wants;
}

static void join(struct client *it, int port) {
    static const char request[] = "GET / HTTP/1.1\r\nHost: localhost\r\nUpgrade: websocket\r\nConnection: Upgrade\r\n"
                                  "Sec-WebSocket-Key: dGhlIHNhbXBsZSBub25jZQ==\r\nSec-WebSocket-Version: 13\r\n\r\n";
    struct sockaddr_in where = {.sin_family = AF_INET, .sin_port = htons(port), .sin_addr.s_addr = htonl(INADDR_LOOPBACK)};
    struct linger resets = {.l_onoff = 1, .l_linger = 0};
    int one = 1;
    it->port = port;
    it->socket = socket(AF_INET, SOCK_STREAM, 0);
    if (it->socket < 0 || connect(it->socket, (struct sockaddr *)&where, sizeof where)) fail("connect");
    setsockopt(it->socket, IPPROTO_TCP, TCP_NODELAY, &one, sizeof one);
    if (is_flooding) setsockopt(it->socket, SOL_SOCKET, SO_LINGER, &resets, sizeof resets);
    fcntl(it->socket, F_SETFL, O_NONBLOCK);
    if (send(it->socket, request, sizeof request - 1, 0) < 0) fail("send");
    struct epoll_event event = {.events = EPOLLIN, .data.ptr = it};
    epoll_ctl(poll_at, EPOLL_CTL_ADD, it->socket, &event);
}

/* Leaves, and comes once more. */
static void come_anew(struct client *it) {
    struct client last = *it;
    close(it->socket);
    *it = (struct client){.is_going = 1, .hello = last.hello, .work = last.work};
    join(it, last.port);
}

static void go_on(int patience) {
    struct epoll_event events[512];
    int ready = epoll_wait(poll_at, events, 512, patience);
    for (int i = 0; i < ready; i++) {
        struct client *it = events[i].data.ptr;
        if (it->is_over) continue;
        if (events[i].events & (EPOLLIN | EPOLLHUP | EPOLLERR)) read_on(it);
        else write_on(it);
        if (it->is_over) continue;
        if (it->comes_anew) { come_anew(it); continue; }
        write_on(it);
        watch(it);
    }
}

/* Goes on until so many commands of those that introduce clients are answered. */
static void await(int answers) {
    for (double until = now() + 60e3; greetings < answers; go_on(100))
        if (now() > until || ended) { fprintf(stderr, "%d greetings, %ld ended\n", greetings, ended); exit(1); }
    go_on(0);
}

/* Each that is due publishes, unless its last one has no answer yet. */
static void publish_due(void) {
    double moment = now();
    for (int i = 0; i < count; i++) {
        struct client *it = clients + i;
        if (it->is_over || it->in_flight || moment < it->due) continue;
        it->due = moment + gap;
        it->in_flight = it->works = 1;
        write_on(it);
        watch(it);
    }
}

static void introduce(struct client *it, const char *kind, const char *channel, int number, size_t size) {
    char own[300], *text = malloc(size + 400);
    if (is_asking) snprintf(own, sizeof own, "%s-%d", channel, number);
    else snprintf(own, sizeof own, "%s", is_flooding || is_returning ? "flooders" : channel);
    int length = sprintf(text, "{\"id\":1,\"connect\":{}}\n{\"id\":2,\"subscribe\":{\"channel\":\"%s\"}}", own);
    it->hello = frame_of(text, length);
    length = sprintf(text, "{\"id\":3,\"publish\":{\"channel\":\"%s\",\"data\":\"", is_asking ? own : channel);
    memset(text + length, 'x', size);
    strcpy(text + length + size, "\"}}");
    it->work = frame_of(text, length + size + 3);
    free(text);
    (void)kind;
}

int main(int given, char **words) {
    if (given != 8) { fprintf(stderr, "crowd KIND PORTS CHANNEL COUNT SIZE IN_FLIGHT GAP\n"); return 2; }
    int ports[64], port_count = 0;
    is_asking = !strcmp(words[1], "asks"), is_flooding = !strcmp(words[1], "floods"), is_returning = !strcmp(words[1], "returns");
    for (char *at = strtok(words[2], ","); at && port_count < 64; at = strtok(NULL, ",")) ports[port_count++] = atoi(at);
    count = atoi(words[4]), most_in_flight = atoi(words[6]), gap = atof(words[7]);
    clients = calloc(count, sizeof *clients);
    poll_at = epoll_create1(0);
    for (int i = 0; i < count; i++) {
        introduce(clients + i, words[1], words[3], i, atol(words[5]));
        join(clients + i, ports[i % port_count]);
        await(2 * (i - 64));    /* so that few wait to be accepted */
    }
    await(2 * count);
    printf("ready\n"), fflush(stdout);
    struct pollfd input = {.fd = 0, .events = POLLIN};
    int has_begun = 0;
    for (;;) {
        if (poll(&input, 1, 0) > 0) {
            char line[64];
            if (read(0, line, sizeof line) <= 0) break;
            if (!has_begun && (is_flooding || is_returning))
                for (int i = 0; i < count; i++) {
                    clients[i].is_going = 1, clients[i].in_flight = clients[i].works = is_flooding ? most_in_flight : 1;
                    write_on(clients + i), watch(clients + i);
                }
            for (int i = 0; i < count && is_asking; i++) clients[i].due = now() + gap * i / count;
            has_begun = 1;
        }
        if (has_begun && is_asking) publish_due();
        go_on(is_asking ? 2 : 50);
    }
    for (int i = 0; i < count && is_asking; i++)
        if (!clients[i].is_over && clients[i].in_flight && now() - clients[i].asked > longest) longest = now() - clients[i].asked;
    printf("%ld %.0f %ld [", replies, longest, ended);
    for (int i = 0; i < ended && i < MOST_CODES; i++) printf(i ? ",%d" : "%d", codes[i]);
    printf("] %ld %ld\n", texts, errors);
    return 0;
}
