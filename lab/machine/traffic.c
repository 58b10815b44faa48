/* Three tools for lab/bench. `loop` forwards as the gateway does, but looks at nothing: one recvfrom and one sendto a
   packet, and a poll where nothing is there. `load` sends frames as fast as they come back and counts these; `pace` sends
   them one by one at an even pace. */
#define _GNU_SOURCE
#include <arpa/inet.h>
#include <errno.h>
#include <fcntl.h>
#include <poll.h>
#include <stdio.h>
#include <stdlib.h>
#include <string.h>
#include <sys/socket.h>
#include <time.h>

enum { FRONT = 22, BATCH = 32, WINDOW = 64, LONGEST = 4096 };

/* PORT of the loopback, or ADDRESS:PORT */
static struct sockaddr_in end_of(const char *words) {
    const char *colon = strchr(words, ':');
    char address[INET_ADDRSTRLEN] = "127.0.0.1";
    if (colon != NULL)
        snprintf(address, sizeof address, "%.*s", (int)(colon - words), words);
    struct sockaddr_in end = {.sin_family = AF_INET, .sin_port = htons((unsigned short)atoi(colon ? colon + 1 : words))};
    if (inet_pton(AF_INET, address, &end.sin_addr) != 1) {
        fprintf(stderr, "traffic: no address: %s\n", words);
        exit(1);
    }
    return end;
}

static int bound(const char *port) {
    struct sockaddr_in end = end_of(port);
    int fd = socket(AF_INET, SOCK_DGRAM | SOCK_NONBLOCK, 0);
    if (fd < 0 || bind(fd, (struct sockaddr *)&end, sizeof end) < 0) {
        perror("traffic: bind");
        exit(1);
    }
    return fd;
}

/* One packet from one socket to the other: without its first octets, or with as many more in front. 0 where none is there. */
static int pass(int in, int out, struct sockaddr_in *peer, char *room, ssize_t front) {
    struct sockaddr_in from;
    socklen_t length = sizeof from;
    ssize_t count = recvfrom(in, room + FRONT, LONGEST, 0, (struct sockaddr *)&from, &length);
    if (count < 0)
        return 0;
    if (count > front)
        sendto(out, room + FRONT + front, (size_t)(count - front), 0, (struct sockaddr *)peer, sizeof *peer);
    return 1;
}

/* What the loop puts before a packet of the core: the Ethernet, PPPoE and PPP headers of the provisioned circuit. */
static const char headers[FRONT + 1] = "\2\0\0\0\0\1\2\0\0\0\0\376\x88\x64\x11\0\4\1\0\0\0\x21";

/* loop ACCESS CORE CORE_PEER ACCESS_PEER CONTROL: until a datagram comes at CONTROL */
static int forward(char **ports) {
    int access = bound(ports[0]), core = bound(ports[1]), control = bound(ports[4]);
    struct sockaddr_in core_peer = end_of(ports[2]), access_peer = end_of(ports[3]);
    struct pollfd waits[3] = {{access, POLLIN, 0}, {core, POLLIN, 0}, {control, POLLIN, 0}};
    static char room[FRONT + LONGEST];
    memcpy(room, headers, FRONT);
    while (!(waits[2].revents & POLLIN)) {
        int passed = 0;
        while (pass(access, core, &core_peer, room, FRONT))
            passed++;
        while (pass(core, access, &access_peer, room, -FRONT))
            passed++;
        if (passed == 0)
            poll(waits, 3, 100);
    }
    return 0;
}

static double seconds(void) {
    struct timespec now;
    clock_gettime(CLOCK_MONOTONIC, &now);
    return (double)now.tv_sec + 1e-9 * (double)now.tv_nsec;
}

/* load OUT_FD IN_FD END SECONDS, what to send to END on standard input, or to where OUT_FD is bound where END is -: prints
   the packets that came back, those that did not, and the seconds */
static int load(char **words) {
    int outward = atoi(words[0]), inward = atoi(words[1]), is_named = strcmp(words[2], "-") != 0;
    struct sockaddr_in to = end_of(is_named ? words[2] : "0");
    static char frame[LONGEST], rooms[BATCH][LONGEST];
    size_t length = fread(frame, 1, sizeof frame, stdin);
    struct iovec out = {frame, length}, ins[BATCH];
    struct mmsghdr sends[BATCH] = {0}, gets[BATCH] = {0};
    for (int at = 0; at < BATCH; at++) {
        ins[at] = (struct iovec){rooms[at], LONGEST};
        sends[at].msg_hdr = (struct msghdr){is_named ? &to : NULL, is_named ? sizeof to : 0, &out, 1, NULL, 0, 0};
        gets[at].msg_hdr = (struct msghdr){NULL, 0, &ins[at], 1, NULL, 0, 0};
    }
    long came = 0, lost = 0, away = 0;
    double start = seconds(), limit = atof(words[3]), now = start;
    while (now - start < limit || away > 0) {
        if (now - start < limit && away + BATCH <= WINDOW) {
            int count = sendmmsg(outward, sends, BATCH, 0);
            away += count > 0 ? count : 0;
        }
        int count = recvmmsg(inward, gets, BATCH, MSG_DONTWAIT, NULL);
        if (count > 0) {
            came += count;
            away -= count;
        } else if (away + BATCH > WINDOW || now - start >= limit) {
            struct pollfd wait = {inward, POLLIN, 0};
            if (poll(&wait, 1, 200) == 0) {
                lost += away;
                away = 0;
            }
        }
        now = seconds();
    }
    printf("%ld %ld %.6f\n", came, lost, now - start);
    return 0;
}

/* pace OUT_FD IN_FD END SECONDS RATE: the same, one frame after the other, RATE of them a second */
static int pace(char **words) {
    int outward = atoi(words[0]), inward = atoi(words[1]);
    struct sockaddr_in to = end_of(words[2]);
    static char frame[LONGEST], room[LONGEST];
    size_t length = fread(frame, 1, sizeof frame, stdin);
    long came = 0, sent = 0, most = (long)(atof(words[3]) * atof(words[4]));
    double start = seconds(), rate = atof(words[4]), quiet = start;
    while (sent < most || (came < sent && seconds() - quiet < 0.2)) {
        double now = seconds();
        if (sent < most && now - start >= (double)sent / rate) {
            sendto(outward, frame, length, 0, (struct sockaddr *)&to, sizeof to);
            sent++;
            quiet = now;
        }
        struct pollfd wait = {inward, POLLIN, 0};
        double left = start + (double)sent / rate - seconds();
        struct timespec most_wait = {0, sent == most ? 1000000 : left > 0 ? (long)(left * 1e9) : 0};
        if (ppoll(&wait, 1, &most_wait, NULL) > 0)
            while (recv(inward, room, sizeof room, MSG_DONTWAIT) >= 0)
                came++;
    }
    printf("%ld %ld %.6f\n", came, sent - came, seconds() - start);
    return 0;
}

int main(int count, char **words) {
    if (count == 7 && strcmp(words[1], "loop") == 0)
        return forward(words + 2);
    if (count == 6 && strcmp(words[1], "load") == 0)
        return load(words + 2);
    if (count == 7 && strcmp(words[1], "pace") == 0)
        return pace(words + 2);
    fprintf(stderr, "usage: traffic loop ACCESS CORE CORE_PEER ACCESS_PEER CONTROL | traffic load OUT_FD IN_FD END SECONDS"
                    " | traffic pace OUT_FD IN_FD END SECONDS RATE\n");
    return 1;
}
