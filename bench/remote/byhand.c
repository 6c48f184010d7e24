// Parties written by hand over the same server and by the same commands as sjparty: one process plays one of them.
//
//   byhand PORT RUN PARTY TURNS DEPTH
//
// PARTY is `a0` to `a4`, `b0` to `b4` or `c0` to `c4`, which move the messages of `sj make TURNS`; or `ping` or `pong`, which answer
// each other so many times. Each has one stream. An entry there is one message, a short text, and DEPTH entries are added before an
// answer is waited for. Nothing is noted beside the messages, and a process that was killed can't go on.
#include <arpa/inet.h>
#include <netinet/in.h>
#include <netinet/tcp.h>
#include <stdarg.h>
#include <stdio.h>
#include <stdlib.h>
#include <string.h>
#include <sys/socket.h>
#include <unistd.h>

enum { COUNT = 512, PATIENCE = 60000 };

static int server;
static const char *run;
static long depth;

// What is to be sent, and what came and wasn't read yet.
static char out[1 << 20], in[1 << 20];
static size_t out_size, in_at, in_size;

static void fail(const char *why) {
    fprintf(stderr, "byhand: %s\n", why);
    exit(2);
}

static void put(const char *form, ...) {
    va_list args;
    va_start(args, form);
    out_size += vsnprintf(out + out_size, sizeof out - out_size, form, args);
    va_end(args);
    if (out_size >= sizeof out) fail("too long");
}

static void put_word(const char *word) { put("$%zu\r\n%s\r\n", strlen(word), word); }

static void send_all(void) {
    for (size_t at = 0; at < out_size;) {
        ssize_t n = write(server, out + at, out_size - at);
        if (n <= 0) fail("connection lost");
        at += n;
    }
    out_size = 0;
}

static void more(void) {
    if (in_at == in_size) in_at = in_size = 0;
    if (in_size == sizeof in) {
        memmove(in, in + in_at, in_size - in_at);
        in_size -= in_at;
        in_at = 0;
    }
    ssize_t n = read(server, in + in_size, sizeof in - in_size);
    if (n <= 0) fail("connection lost");
    in_size += n;
}

static char byte(void) {
    while (in_at == in_size) more();
    return in[in_at++];
}

// The head of a part of a reply: its mark, and its number or what stands in its place.
static char head(long *number) {
    char mark = byte(), line[64];
    size_t n = 0;
    for (char c; (c = byte()) != '\r';)
        if (n < sizeof line - 1) line[n++] = c;
    byte();
    line[n] = 0;
    if (mark == '-') fail(line);
    *number = atol(line);
    return mark;
}

static long array(void) {
    long n;
    if (head(&n) != '*' || n < 0) fail("no array");
    return n;
}

static void bulk(char *text, size_t room) {
    long n;
    if (head(&n) != '$' || n < 0 || (size_t)n >= room) fail("no text");
    for (long i = 0; i < n; i++) text[i] = byte();
    text[n] = 0;
    byte();
    byte();
}

// The own stream: entries that were added, and those of them whose answer didn't come yet.
static char own[64];
static long added, due;

static void answers(long left) {
    char id[64];
    for (; due > left; due--) bulk(id, sizeof id);
}

static void put_add(long message) {
    char id[32], text[32];
    snprintf(id, sizeof id, "%ld-0", ++added);
    snprintf(text, sizeof text, "%ld", message);
    put("*5\r\n");
    put_word("XADD");
    put_word(own);
    put_word(id);
    put_word("m");
    put_word(text);
    due++;
}

static void flush(void) {
    send_all();
    answers(0);
}

static void add(long message) {
    put_add(message);
    if (due >= depth) flush();
}

// Another party's stream: its messages that came, and how many were taken.
struct from {
    char key[64];
    long last, messages[COUNT], at, count;
};

static void key_of(char *key, size_t room, const char *party) { snprintf(key, room, "hand:{%s}:%s", run, party); }

static long take(struct from *from) {
    if (from->at < from->count) return from->messages[from->at++];
    char id[64], text[64];
    put("*8\r\n");
    put_word("XREAD");
    put_word("COUNT");
    snprintf(text, sizeof text, "%d", COUNT);
    put_word(text);
    put_word("BLOCK");
    snprintf(text, sizeof text, "%d", PATIENCE);
    put_word(text);
    put_word("STREAMS");
    put_word(from->key);
    snprintf(id, sizeof id, "%ld-0", from->last);
    put_word(id);
    // what was added goes in the same flight
    send_all();
    answers(0);
    if (array() != 1 || array() != 2) fail("no stream");
    bulk(text, sizeof text);
    from->count = array();
    if (from->count > COUNT) fail("too many");
    for (long i = 0; i < from->count; i++) {
        if (array() != 2) fail("no entry");
        bulk(id, sizeof id);
        from->last = atol(id);
        if (array() != 2) fail("no message");
        bulk(text, sizeof text);
        bulk(text, sizeof text);
        from->messages[i] = atol(text);
    }
    from->at = 1;
    return from->messages[0];
}

// Sends that number so many times, each after a word that says that one more comes; and takes the sum.
static void sender(long number, long turns, struct from *adder) {
    for (long i = 0; i < turns; i++) {
        add(1);
        add(number);
    }
    put_add(0);
    if (take(adder) != number * turns) fail("wrong sum");
}

static void adder(struct from *giver, struct from *sender) {
    long sum = 0;
    take(giver);
    while (take(sender)) sum += take(sender);
    put_add(sum);
    flush();
}

// One side of so many turns. The hop's message and the read of the answer go in one flight.
static void turn(int first, long turns, struct from *other) {
    for (long i = 0; i < turns; i++) {
        if (!first && take(other) != i) fail("wrong answer");
        put_add(i);
        if (first && take(other) != i) fail("wrong answer");
    }
    flush();
}

static void connect_to(int port) {
    struct sockaddr_in at = {.sin_family = AF_INET, .sin_port = htons(port), .sin_addr.s_addr = htonl(INADDR_LOOPBACK)};
    int yes = 1;
    server = socket(AF_INET, SOCK_STREAM, 0);
    if (server < 0 || connect(server, (struct sockaddr *)&at, sizeof at)) fail("no server");
    setsockopt(server, IPPROTO_TCP, TCP_NODELAY, &yes, sizeof yes);
}

int main(int argc, char **argv) {
    if (argc != 6) fail("usage: byhand PORT RUN PARTY TURNS DEPTH");
    const char *party = argv[3];
    long turns = atol(argv[4]), group = party[0] ? party[1] - '0' : 0;
    run = argv[2];
    depth = atol(argv[5]);
    connect_to(atoi(argv[1]));
    key_of(own, sizeof own, party);
    static struct from one, two;
    char name[8];
    if (!strcmp(party, "ping") || !strcmp(party, "pong")) {
        key_of(one.key, sizeof one.key, party[1] == 'i' ? "pong" : "ping");
        turn(party[1] == 'i', turns, &one);
    } else if (party[0] == 'a') {
        snprintf(name, sizeof name, "c%ld", group);
        key_of(one.key, sizeof one.key, name);
        sender(group + 1, turns, &one);
    } else if (party[0] == 'b') {
        put_add(group);
        flush();
    } else if (party[0] == 'c') {
        snprintf(name, sizeof name, "b%ld", group);
        key_of(one.key, sizeof one.key, name);
        snprintf(name, sizeof name, "a%ld", group);
        key_of(two.key, sizeof two.key, name);
        adder(&one, &two);
    } else
        fail("no such party");
    return 0;
}
