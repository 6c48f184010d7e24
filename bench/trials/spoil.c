/* Spoils the loopback streams between the parties of `sjnet`, at places that the environment names. A stream has a number, in the order of their connects, and
   a byte of it one, in the order of sending.
     SPOIL=KIND:STREAM:BYTE:BY  from that byte on the stream is `end`ed or `abort`ed; that byte is `change`d by BY, BY bytes are `lose`d, or it is `double`d
     REFUSE=CALL:N:ERRNO        the Nth call of that name fails: socket bind listen connect accept4 getsockname setsockopt send recv
     SHORT=SEED                 sends and receives move a few bytes, or none, as if they had to wait or were interrupted
     STRANGER=1                 before each connect somebody else connects to that port, and says something
     COUNT=FILE                 holds STREAMS longs, the bytes sent on each stream, then how often each of the nine calls came, then how often a stream was spoilt */
#define _GNU_SOURCE
#include <dlfcn.h>
#include <errno.h>
#include <fcntl.h>
#include <netinet/in.h>
#include <stdatomic.h>
#include <stdio.h>
#include <stdlib.h>
#include <string.h>
#include <sys/mman.h>
#include <sys/socket.h>
#include <unistd.h>

#define STREAMS 256
#define FDS 4096
enum { SOCKET, BIND, LISTEN, CONNECT, ACCEPT4, GETSOCKNAME, SETSOCKOPT, SEND, RECV, CALLS };
static const char *const names[CALLS] = {"socket", "bind", "listen", "connect", "accept4", "getsockname", "setsockopt", "send", "recv"};
static atomic_long own[STREAMS + CALLS + 1];
static atomic_long *counts = own; /* sent, then called, then spoilt */
static atomic_long turns;
static int numbers[FDS]; /* the stream of a descriptor, from 1 */
static int last;         /* the stream that was connected last */
static char kind[16];
static long spoilt_stream = -1, spoilt_byte, by, refused = -1, refused_at, refused_with, is_short, seed, is_stranger;

__attribute__((constructor)) static void begin(void) {
    const char *it = getenv("COUNT");
    int to = it ? open(it, O_RDWR | O_CREAT | O_TRUNC, 0600) : -1;
    if (to >= 0 && ftruncate(to, sizeof own) == 0) {
        void *at = mmap(0, sizeof own, PROT_READ | PROT_WRITE, MAP_SHARED, to, 0);
        if (at != MAP_FAILED) counts = at;
    }
    if (to >= 0) close(to);
    if ((it = getenv("SPOIL")) && sscanf(it, "%15[a-z]:%ld:%ld:%ld", kind, &spoilt_stream, &spoilt_byte, &by) != 4) abort();
    char name[16];
    if ((it = getenv("REFUSE"))) {
        if (sscanf(it, "%15[a-z0-9]:%ld:%ld", name, &refused_at, &refused_with) != 3) abort();
        for (int i = 0; i < CALLS; i++) if (!strcmp(name, names[i])) refused = i;
    }
    if ((it = getenv("SHORT"))) { is_short = 1; seed = atol(it); }
    is_stranger = getenv("STRANGER") != 0;
}
/* Counts a call, and answers whether it is the one that fails. */
static int fails(int call) {
    long now = atomic_fetch_add(&counts[STREAMS + call], 1) + 1;
    if (call != refused || now != refused_at) return 0;
    errno = refused_with;
    return 1;
}
#define REAL_AS(real, name) static __typeof__(name) *real; if (!real) real = dlsym(RTLD_NEXT, #name)
#define REAL(name) REAL_AS(real, name)
static void number(int fd, int stream) { if (fd >= 0 && fd < FDS) numbers[fd] = stream; }
/* The stream of that descriptor, or -1. */
static int stream_of(int fd) { return fd >= 0 && fd < FDS ? numbers[fd] - 1 : -1; }
/* How many bytes go at once; 0 for one that has to wait, which happens at each fourth turn. */
static size_t piece(size_t n) {
    if (!is_short) return n;
    unsigned long x = (unsigned long)seed * 0x9E3779B97F4A7C15u + (unsigned long)atomic_fetch_add(&turns, 1) * 0xD1B54A32D192ED03u;
    x ^= x >> 29; x *= 0xBF58476D1CE4E5B9u; x ^= x >> 32;
    if (x % 4 == 0) { errno = x & 16 ? EAGAIN : EINTR; return 0; }
    size_t few = 1 + (x >> 8) % 7;
    return few < n ? few : n;
}

int socket(int domain, int type, int protocol) {
    REAL(socket);
    if (fails(SOCKET)) return -1;
    int fd = real(domain, type, protocol);
    number(fd, 0);
    return fd;
}
int bind(int fd, const struct sockaddr *to, socklen_t n) { REAL(bind); return fails(BIND) ? -1 : real(fd, to, n); }
int listen(int fd, int backlog) { REAL(listen); return fails(LISTEN) ? -1 : real(fd, backlog); }
int connect(int fd, const struct sockaddr *to, socklen_t n) {
    REAL(connect);
    if (fails(CONNECT)) return -1;
    if (is_stranger) {
        REAL_AS(make, socket);
        REAL_AS(say, send);
        int other = make(AF_INET, SOCK_STREAM | SOCK_CLOEXEC, 0);
        if (other >= 0 && real(other, to, n) == 0) say(other, "\0\0\0\017\002\007hello, there..", 19, MSG_NOSIGNAL);
        if (other >= 0) close(other);
    }
    number(fd, ++last);
    return real(fd, to, n);
}
int accept4(int fd, struct sockaddr *from, socklen_t *n, int flags) {
    REAL(accept4);
    if (fails(ACCEPT4)) return -1;
    int far = real(fd, from, n, flags);
    number(far, last);
    return far;
}
int getsockname(int fd, struct sockaddr *at, socklen_t *n) { REAL(getsockname); return fails(GETSOCKNAME) ? -1 : real(fd, at, n); }
int setsockopt(int fd, int level, int name, const void *at, socklen_t n) { REAL(setsockopt); return fails(SETSOCKOPT) ? -1 : real(fd, level, name, at, n); }

/* What happens at the byte itself, in place of sending it: 0 to go on with what came out of it. */
static ssize_t at_the_byte(__typeof__(send) *real, int fd, const char *from, size_t n, int flags) {
    atomic_fetch_add(&counts[STREAMS + CALLS], 1);
    if (!strcmp(kind, "change")) {
        char changed = (char)(from[0] ^ by);
        return real(fd, &changed, 1, flags);
    }
    if (!strcmp(kind, "lose")) return (ssize_t)(n < (size_t)by ? n : (size_t)by);
    if (!strcmp(kind, "double")) return real(fd, from, 1, flags) == 1 ? real(fd, from, 1, flags) : -1;
    REAL_AS(reset, connect);
    if (!strcmp(kind, "end")) shutdown(fd, SHUT_RDWR);
    else reset(fd, &(struct sockaddr){.sa_family = AF_UNSPEC}, sizeof(struct sockaddr)); /* a connection that is undone is reset */
    return real(fd, from, n, flags);
}
ssize_t send(int fd, const void *from, size_t n, int flags) {
    REAL(send);
    if (fails(SEND)) return -1;
    int stream = stream_of(fd);
    size_t now = piece(n);
    if (now == 0 && n > 0) return -1;
    if (stream < 0 || stream >= STREAMS) return real(fd, from, now, flags);
    long sent = counts[stream];
    ssize_t done;
    if (stream == spoilt_stream && sent == spoilt_byte && n > 0) done = at_the_byte(real, fd, from, n, flags);
    else {
        if (stream == spoilt_stream && sent < spoilt_byte && spoilt_byte - sent < (long)now) now = (size_t)(spoilt_byte - sent);
        done = real(fd, from, now, flags);
    }
    if (done > 0) atomic_fetch_add(&counts[stream], done);
    return done;
}
ssize_t recv(int fd, void *to, size_t n, int flags) {
    REAL(recv);
    if (fails(RECV)) return -1;
    size_t now = piece(n);
    return now == 0 && n > 0 ? -1 : real(fd, to, now, flags);
}
