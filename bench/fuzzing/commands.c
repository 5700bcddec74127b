/* Runs commands of nfsbench on one input after the other, in one process, for afl-fuzz: by `afl-clang-fast`, linked with the compiled program, whose
 * `main` is called `nfsbench_main`. FUZZ_TARGET says which commands, FUZZ_FOLDER where their files are. Without afl-fuzz the input is standard input.
 * A status that no page of docs/ has, or two commands that contradict each other, end the process by abort. */
#define _GNU_SOURCE
#include <arpa/inet.h>
#include <fcntl.h>
#include <poll.h>
#include <pthread.h>
#include <setjmp.h>
#include <signal.h>
#include <stdint.h>
#include <stdio.h>
#include <stdlib.h>
#include <string.h>
#include <sys/prctl.h>
#include <sys/socket.h>
#include <time.h>
#include <unistd.h>

#ifdef __AFL_FUZZ_INIT
__AFL_FUZZ_INIT();
#endif

#define ROUNDS 500
#define LIMIT (1 << 20)
#define MOST_WORDS 20

int nfsbench_main(int, char **);

/* The program's `main` ends by `_exit`: while a command runs it comes back here instead. */

static jmp_buf back;
static volatile int is_running, ended;

_Noreturn void __real__exit(int);

_Noreturn void __wrap__exit(int status) {
    if (!is_running)
        __real__exit(status);
    ended = status;
    longjmp(back, 1);
}

static int status_of(int size, char **given) {
    is_running = 1;
    if (!setjmp(back))
        ended = nfsbench_main(size, given);
    is_running = 0;
    return ended;
}

/* The words of a command: what the kit's own C file takes from the process. */

static const char *words[MOST_WORDS];
static int count;

int64_t rattle_arg_count(void) { return count; }

int64_t rattle_arg(uint64_t at, uint8_t *out, uint64_t room) {
    if (at >= (uint64_t)count)
        return -1;
    uint64_t size = strlen(words[at]);
    memcpy(out, words[at], size < room ? size : room);
    return size <= room ? (int64_t)size : -2;
}

/* What writes a recording to disk looks a few times a second whether it has ended: here it looks at once. */
int __real_nanosleep(const struct timespec *, struct timespec *);

int __wrap_nanosleep(const struct timespec *time, struct timespec *left) {
    struct timespec most = {0, 100000};
    return __real_nanosleep(time->tv_sec || time->tv_nsec > most.tv_nsec ? &most : time, left);
}

static const uint8_t *input;
static size_t length;

static void fail(const char *why, int status) {
    fprintf(stderr, "%s: status %d\n", why, status);
    abort();
}

/* The status of a command, which is one of these bits: 1 for 0, 2 for 1, 4 for 2, 8 for 3. */
static int asked(int allowed, const char *line) {
    static char copy[400];
    snprintf(copy, sizeof copy, "nfsbench %s", line);
    count = 0;
    for (char *word = strtok(copy, " "); word && count < MOST_WORDS; word = strtok(NULL, " "))
        words[count++] = word;
    int status = status_of(count, (char **)words);
    if (status < 0 || status > 3 || !(allowed >> status & 1))
        fail(line, status);
    return status;
}

static void same(const char *line, int wanted) {
    int status = asked(7, line);
    if (status != wanted)
        fail(line, status);
}

static void put(const char *name, const uint8_t *bytes, size_t size) {
    int file = open(name, O_WRONLY | O_CREAT | O_TRUNC, 0600);
    if (file < 0 || write(file, bytes, size) != (ssize_t)size)
        _exit(9);
    close(file);
}

/* The input is a history, and from its last `witness ` on a certificate. */
static void put_both(void) {
    size_t at = length;
    for (size_t begin = length < 8 ? 0 : length - 7; begin-- > 0;)
        if (!memcmp(input + begin, "witness ", 8)) {
            at = begin;
            break;
        }
    put("history", input, at);
    put("certificate", input + at, length - at);
}

static void judge(void) {
    put_both();
    int status = asked(7, "check history certificate");
    same("report history certificate", status);
    same("check --json history certificate", status);
}

static void tell(void) {
    put_both();
    int status = asked(7, "check history certificate");
    same("show history certificate", status);
    same("explain --states 100 --seconds 1 history certificate", status);
    asked(7, "draw history certificate");
}

static void look(void) {
    put_both();
    int shown = asked(5, "show --short history");
    asked(7, "draw history");
    for (int events = 0; events < 12; events += 5) {
        char line[80];
        snprintf(line, sizeof line, "prefix history %d made", events);
        same(line, shown);
    }
    if (!shown)
        same("show made", 0);
}

static void search(void) {
    put_both();
    int decided = asked(7, "decide --certificate made --states 100 --seconds 1 history");
    int found = asked(7, "search --workers 1 --turns 500 --seconds 1 --quiet history");
    if ((decided == 1 && found == 0) || (decided == 0 && found == 2))
        fail("search and decide differ", found);
    if (decided == 0)
        same("check history made", 0);
    asked(7, "explain --states 50 --seconds 1 history");
}

/* A certificate of one history, which is there already. */
static void certify(void) {
    put("certificate", input, length);
    int status = asked(7, "check history certificate");
    same("explain --states 100 --seconds 1 history certificate", status);
    asked(7, "draw history certificate");
}

static void mend(void) {
    put("part", input, length);
    if (asked(7, "mend part made") < 2)
        asked(5, "show made");
}

static void import(void) {
    put("capture", input, length);
    if (!asked(5, "import --port 2049 capture made"))
        asked(5, "show made");
    if (asked(7, "import --port 2049 --root 0001 --strict capture made") < 2)
        asked(5, "show made");
}

/* What the bundled server wrote of itself is never refused. A plan of a few lines may want more memory than there is. */
static void run(void) {
    put("plan", input, length);
    if (!asked(13, "run plan made witness"))
        same("check made witness", 0);
}

static void start(void) {
    put_both();
    if (!asked(13, "run --start history plan made witness"))
        same("check made witness", 0);
}

/* A client that sends the input to the server on a port, and takes what comes back. */
static void *client(void *port) {
    struct sockaddr_in address = {.sin_family = AF_INET, .sin_port = htons(*(int *)port), .sin_addr.s_addr = htonl(INADDR_LOOPBACK)};
    int line = socket(AF_INET, SOCK_STREAM, 0);
    while (connect(line, (struct sockaddr *)&address, sizeof address)) {
        close(line);
        usleep(20);
        line = socket(AF_INET, SOCK_STREAM, 0);
    }
    static char taken[1 << 16];
    for (size_t sent = 0;;) {
        struct pollfd ready = {.fd = line, .events = POLLIN | (sent < length ? POLLOUT : 0)};
        poll(&ready, 1, -1);
        if (ready.revents & POLLOUT) {
            ssize_t took = send(line, input + sent, length - sent, MSG_NOSIGNAL | MSG_DONTWAIT);
            sent = took < 0 ? length : sent + took;
        }
        if (sent == length)
            shutdown(line, SHUT_WR);
        if (ready.revents & (POLLIN | POLLERR | POLLHUP) && recv(line, taken, sizeof taken, MSG_DONTWAIT) <= 0)
            break;
    }
    struct linger none = {.l_onoff = 1};
    setsockopt(line, SOL_SOCKET, SO_LINGER, &none, sizeof none);
    close(line);
    return NULL;
}

static void serve(void) {
    char line[200];
    int port = atoi(getenv("FUZZ_PORT"));
    pthread_t sender;
    unlink("made.part");
    snprintf(line, sizeof line, "serve --port %d --lanes 1 --calls 1000 --mountable %smade witness", port, length & 1 ? "--strict " : "");
    if (pthread_create(&sender, NULL, client, &port))
        _exit(9);
    int status = asked(9, line);
    pthread_join(sender, NULL);
    if (!status)
        same("check made witness", 0);
}

static const struct { const char *name; void (*ask)(void); } targets[] = {
    {"judge", judge}, {"tell", tell}, {"look", look}, {"search", search}, {"certify", certify},
    {"mend", mend}, {"import", import}, {"run", run}, {"start", start}, {"serve", serve},
};

int main(void) {
    void (*ask)(void) = NULL;
    for (size_t at = 0; at < sizeof targets / sizeof *targets; at++)
        if (!strcmp(targets[at].name, getenv("FUZZ_TARGET")))
            ask = targets[at].ask;
    if (!ask || chdir(getenv("FUZZ_FOLDER")))
        return 9;
#ifdef __AFL_FUZZ_INIT
    __AFL_INIT();
    /* It waits stopped between inputs, and would stay so when afl-fuzz ends. */
    prctl(PR_SET_PDEATHSIG, SIGKILL);
    input = __AFL_FUZZ_TESTCASE_BUF;
    while (__AFL_LOOP(ROUNDS)) {
        length = __AFL_FUZZ_TESTCASE_LEN;
        ask();
    }
#else
    static uint8_t given[LIMIT];
    input = given;
    for (ssize_t took; (took = read(0, given + length, LIMIT - length)) > 0; length += took)
        ;
    ask();
#endif
    return 0;
}
