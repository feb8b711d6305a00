/* hgd-record: runs a program that was built with hgd-cc, and writes its trace.
 *
 * It takes the program's events from the ring (runtime/ring.h), sees what threads hand over (handovers.c), and makes lines of them: to a
 * file, to standard output, or to a `hgd` that it starts. The program does nothing with the trace itself, so a full disk or a reader that has gone ends the trace and not
 * the program.
 */
#include <errno.h>
#include <fcntl.h>
#include <getopt.h>
#include <inttypes.h>
#include <poll.h>
#include <signal.h>
#include <stdarg.h>
#include <stdbool.h>
#include <stdio.h>
#include <stdlib.h>
#include <string.h>
#include <sys/mman.h>
#include <sys/random.h>
#include <sys/resource.h>
#include <sys/stat.h>
#include <sys/syscall.h>
#include <sys/wait.h>
#include <time.h>
#include <unistd.h>

#include "handovers.h"
#include "runtime/ring.h"

enum {
    STATUS_FAILED = 125,
    STATUS_NOT_RUN = 126,
    STATUS_NOT_FOUND = 127,
    STATUS_SIGNAL = 128,
    LONGEST_LINE = 128,
    LONGEST_BLOCK = 1 << 20,
    MOST_LINES_OF_A_STACK = 1024,
    /* so many milliseconds an event is held back for messages: who reads along is not to wait */
    LONGEST_HOLD = 2000,
    LONGEST_HOLD_READ_ALONG = 100,
    BUFFER = 1 << 16,
};

/* How often the next event may be missing, with a nap in between, while the ring is full: some ten seconds, in which this program was run.
 * The event's thread was then stopped in the midst for good. */
static const unsigned MOST_LOOKS_FOR_ONE_EVENT = 60000;

static const char HELP[] =
    "Usage: hgd-record [OPTIONS] PROGRAM [ARGUMENT]..\n"
    "Runs a program that was built with hgd-cc or hgd-c++, and writes a trace of its events for `hgd`.\n"
    "\n"
    "  -o, --output FILE     the trace goes to FILE, `-` for standard output (default: PROGRAM's name with .trace,\n"
    "                        but no file with --check or --feed)\n"
    "      --check           the trace goes to `hgd check`, whose lines are printed, and with -o FILE to that too\n"
    "      --feed DIR SOURCE the same with `hgd feed DIR SOURCE`\n"
    "      --report          at the end `hgd-report` prints the races, by the trace and its codes, which are kept (default:\n"
    "                        PROGRAM's name with .codes)\n"
    "      --hgd PATH        the `hgd` of these (default: $HGD, or `hgd` of the path)\n"
    "  -p, --pcs FILE        also writes the code address of each event to FILE, for `where` and `hgd-report`\n"
    "  -n, --no-filter       also writes accesses that cannot change anything, and those made while all other threads\n"
    "                        had been joined\n"
    "      --unfiltered FILE writes the trace with the former to FILE too, of the same run\n"
    "      --no-stacks       writes no call stacks into that file\n"
    "      --messages WHICH  which messages `send` and `recv` the trace has of what orders threads, each word more than\n"
    "                        the one before it:\n"
    "                        none   none\n"
    "                        waits  of condition waits, semaphores, barriers, what runs once, annotations and atomics\n"
    "                        read   of holds of a lock that read what another thread's hold of it wrote (the default)\n"
    "                        locks  of each lock that another thread had before\n"
    "      --no-hand-overs   the same as --messages none\n"
    "      --no-comments     writes no comments of atomics\n"
    "  -l, --limit N         the trace ends after N events\n"
    "  -q, --quiet           tells only what went wrong\n"
    "  -h, --help            prints this\n"
    "\n"
    "Where standard output has the trace or the lines of `hgd`, the program's own goes to standard error.\n"
    "The status is the program's, or 128 and the signal that ended it; where that is 0, that of `hgd`; 125 where the\n"
    "trace could not be written, 126 or 127 where the program could not be started.\n";

struct options {
    const char *output;
    const char *hgd;
    const char *directory, *source;
    const char *pcs;
    const char *unfiltered;
    bool check, report, filter, comments, stacks, quiet;
    enum messages messages;
    uint64_t limit;
    char **program;
};

/* A file that takes whole lines only, as far as the file can be cut. */
struct sink {
    int file;
    const char *name;
    size_t used;
    /* how many bytes the file has taken */
    uint64_t written;
    bool failed;
    char buffer[BUFFER + LONGEST_LINE];
};

static struct sink trace = {.file = -1}, codes = {.file = -1}, all_events = {.file = -1};
/* the pipe into hgd, where the trace goes to a file too */
static struct sink into_detector = {.file = -1};
static struct ring *ring;
static pid_t program = -1, detector = -1;
static int program_status = -1, detector_status;
static int recorded = -1;
static uint64_t events, lines_of_comments, limit;
static int most_thread, locks_seen = -1;
static bool is_quiet, puts_comments;
static enum messages messages;
/* a number that the trace and the codes of one run have together */
static uint64_t run_number;
/* how much of the ring's maps the codes have, and which of its stacks */
static uint32_t maps_put;
static bool is_stack_put[MOST_STACKS];

__attribute__((format(printf, 1, 2))) static void tell(const char *format, ...)
{
    va_list arguments;
    va_start(arguments, format);
    fputs("hgd-record: ", stderr);
    vfprintf(stderr, format, arguments);
    fputc('\n', stderr);
    va_end(arguments);
}

__attribute__((noreturn, format(printf, 2, 3))) static void fail(int status, const char *format, ...)
{
    va_list arguments;
    va_start(arguments, format);
    fputs("hgd-record: ", stderr);
    vfprintf(stderr, format, arguments);
    fputc('\n', stderr);
    va_end(arguments);
    exit(status);
}

/* ---- what is written ---- */

/* Drops what follows the last whole line (or number of 8 bytes). A pipe cannot be cut, and has nobody who reads on. */
static void cut_to_whole(struct sink *sink, const char *bytes, size_t taken)
{
    while (taken && bytes[taken - 1] != '\n') {
        taken--;
    }
    if (lseek(sink->file, 0, SEEK_CUR) >= 0 && ftruncate(sink->file, (off_t)(sink->written + taken)) == 0) {
        lseek(sink->file, (off_t)(sink->written + taken), SEEK_SET);
    }
}

static void flush_sink(struct sink *sink)
{
    size_t taken = 0;
    while (taken < sink->used && !sink->failed) {
        ssize_t answer = write(sink->file, sink->buffer + taken, sink->used - taken);
        if (answer > 0) {
            taken += (size_t)answer;
        } else if (answer == 0 || errno != EINTR) {
            sink->failed = true;
            tell("%s: %s; the trace ends there", sink->name, answer == 0 ? "nothing is taken" : strerror(errno));
            cut_to_whole(sink, sink->buffer, taken);
        }
    }
    sink->written += taken;
    sink->used = 0;
}

/* The trace in its file, and in hgd where that reads along. If hgd has gone, the file goes on. */
static void flush_trace(void)
{
    if (into_detector.file >= 0 && !into_detector.failed) {
        memcpy(into_detector.buffer, trace.buffer, trace.used);
        into_detector.used = trace.used;
        flush_sink(&into_detector);
    }
    flush_sink(&trace);
}

/* The codes first: who kills this program is to have one for each event. */
static void flush_outputs(void)
{
    if (codes.file >= 0) {
        flush_sink(&codes);
    }
    flush_trace();
}

static char *put_word(char *at, const char *word)
{
    while (*word) {
        *at++ = *word++;
    }
    return at;
}

static char *put_decimal(char *at, uint64_t number)
{
    char digits[20];
    int used = 0;
    do {
        digits[used++] = (char)('0' + number % 10);
        number /= 10;
    } while (number);
    while (used) {
        *at++ = digits[--used];
    }
    return at;
}

static char *put_hexadecimal(char *at, uint64_t number)
{
    int shift = number ? (63 - __builtin_clzll(number)) / 4 * 4 : 0;
    *at++ = '0';
    *at++ = 'x';
    for (; shift >= 0; shift -= 4) {
        *at++ = "0123456789abcdef"[number >> shift & 15];
    }
    return at;
}

/* Room for one line more. */
static char *begin_line(struct sink *sink)
{
    if (sink->used >= BUFFER) {
        if (sink == &trace) {
            flush_outputs();
        } else {
            flush_sink(sink);
        }
    }
    return sink->buffer + sink->used;
}

static void end_line(struct sink *sink, char *at)
{
    *at++ = '\n';
    sink->used = (size_t)(at - sink->buffer);
}

/* ---- addresses of code ---- */

/* Where the files lie of which the code is: `where` needs it. The program tells it before the first event of each file. */
static void put_maps(void)
{
    uint32_t used = atomic_load(&ring->maps_used);
    while (maps_put < used) {
        flush_sink(&codes);
        codes.used = used - maps_put < BUFFER ? used - maps_put : BUFFER;
        memcpy(codes.buffer, ring->maps + maps_put, codes.used);
        maps_put += (uint32_t)codes.used;
        flush_sink(&codes);
    }
}

/* `stack 7 3 0x1000`: stack 7 is a call from that address, by stack 3. Outer frames first, each once. */
static void put_stack(uint32_t stack)
{
    uint32_t inner[MOST_LINES_OF_A_STACK], used = 0;
    for (; stack && stack < MOST_STACKS && !is_stack_put[stack] && used < MOST_LINES_OF_A_STACK; stack = ring->stacks[stack].outer) {
        inner[used++] = stack;
    }
    while (used) {
        const struct stack *frame = &ring->stacks[inner[--used]];
        is_stack_put[inner[used]] = true;
        char *at = put_decimal(put_word(begin_line(&codes), "stack "), inner[used]);
        *at++ = ' ';
        at = put_decimal(at, frame->outer);
        *at++ = ' ';
        end_line(&codes, put_hexadecimal(at, frame->caller));
    }
}

/* One line for each event: the address of its code, and its stack where it has one. */
static void put_code(uint64_t code)
{
    uint32_t stack = (uint32_t)(code >> CODE_BITS);
    if (atomic_load_explicit(&ring->maps_used, memory_order_relaxed) != maps_put) {
        put_maps();
    }
    if (stack) {
        put_stack(stack);
    }
    char *at = put_hexadecimal(begin_line(&codes), code & (((uint64_t)1 << CODE_BITS) - 1));
    if (stack) {
        *at++ = ' ';
        at = put_decimal(at, stack);
    }
    end_line(&codes, at);
}

/* What tells that a trace and codes are of one run. */
static void put_run_number(void)
{
    if (codes.file >= 0) {
        end_line(&codes, put_hexadecimal(put_word(begin_line(&codes), "run "), run_number));
        end_line(&trace, put_hexadecimal(put_word(begin_line(&trace), "# run "), run_number));
    }
}

/* ---- lines ---- */

static void event_is_put(const struct sink *sink, uint64_t code)
{
    if (sink != &trace) {
        return;
    }
    events++;
    if (codes.file >= 0) {
        put_code(code);
    }
}

static bool is_at_limit(void)
{
    return limit && events >= limit;
}

static char *put_thread(struct sink *sink, const char *verb, unsigned thread)
{
    return put_decimal(put_word(begin_line(sink), verb), thread);
}

/* `fork 0 1` and its like. */
static void put_pair(struct sink *sink, const char *verb, const struct event *event)
{
    char *at = put_thread(sink, verb, event->thread);
    *at++ = ' ';
    end_line(sink, put_decimal(at, event->value));
}

/* `write 0 0x1000 4` and its like, in parts of at most 1,048,576 bytes. */
static void put_range(struct sink *sink, const char *verb, const struct event *event)
{
    uint64_t address = event->value, rest = event->length;
    while (rest && !is_at_limit()) {
        uint64_t part = rest < LONGEST_BLOCK ? rest : LONGEST_BLOCK;
        char *at = put_thread(sink, verb, event->thread);
        *at++ = ' ';
        at = put_hexadecimal(at, address);
        *at++ = ' ';
        end_line(sink, put_decimal(at, part));
        event_is_put(sink, event->code);
        address += part;
        rest -= part;
    }
}

static void put_atomic(struct sink *sink, const char *verb, const struct event *event)
{
    if (!puts_comments) {
        return;
    }
    static const char *const orders[] = {"relaxed", "consume", "acquire", "release", "acq_rel", "seq_cst"};
    char *at = put_thread(sink, verb, event->thread);
    if (event->kind != KIND_FENCE) {
        *at++ = ' ';
        at = put_hexadecimal(at, event->value);
        *at++ = ' ';
        at = put_decimal(at, event->length & ((1u << ATOMIC_LENGTH_BITS) - 1));
    }
    unsigned order = event->order & ATOMIC_ORDER;
    *at++ = ' ';
    end_line(sink, put_word(at, orders[order < 6 ? order : 5]));
    lines_of_comments += sink == &trace;
}

/* `# lock 7 0x1000`: for who wants to name it. */
static void put_lock_place(struct sink *sink, const struct event *event)
{
    char *at = put_thread(sink, "# lock ", event->length);
    *at++ = ' ';
    end_line(sink, put_hexadecimal(at, event->value));
    lines_of_comments += sink == &trace;
}

/* `# alloc 0 0x1000 64 0x5555` with the address of the code: what the block is that a report names. */
static void put_early_block(struct sink *sink, const struct event *event)
{
    char *at = put_thread(sink, "# alloc ", event->thread);
    *at++ = ' ';
    at = put_hexadecimal(at, event->value);
    *at++ = ' ';
    at = put_decimal(at, event->length);
    *at++ = ' ';
    at = put_hexadecimal(at, event->code & (((uint64_t)1 << CODE_BITS) - 1));
    uint32_t stack = (uint32_t)(event->code >> CODE_BITS);
    if (stack && codes.file >= 0) {
        put_stack(stack);
        *at++ = ' ';
        at = put_decimal(at, stack);
    }
    end_line(sink, at);
    lines_of_comments += sink == &trace;
}

static void put_comment(const char *text)
{
    end_line(&trace, put_word(begin_line(&trace), text));
    lines_of_comments++;
}

/* False where the trace ends with this event. */
static bool put_stop(const struct event *event)
{
    bool is_threads = event->value == STOP_THREADS;
    put_comment(is_threads ? "# the trace ends here: the program begins a thread above 1023"
                           : "# the trace ends here: the program takes a lock above 65535");
    tell("the trace ends after %" PRIu64 " events: the program %s", events,
         is_threads ? "begins more than 1,024 threads" : "takes more than 65,536 locks");
    return false;
}

static void note_numbers(const struct event *event)
{
    if (event->kind == KIND_FORK && (int)event->value > most_thread) {
        most_thread = (int)event->value;
    }
    if ((event->kind == KIND_LOCK || event->kind == KIND_READ_LOCK) && (int)event->value > locks_seen) {
        locks_seen = (int)event->value;
    }
}

/* An event as a line, or several, of one of the traces. */
static void put_lines(struct sink *sink, enum kind kind, const struct event *event)
{
    static const char *const verbs[] = {
        [KIND_FORK] = "fork ",     [KIND_JOIN] = "join ",  [KIND_LOCK] = "lock ",     [KIND_READ_LOCK] = "rdlock ",
        [KIND_UNLOCK] = "unlock ", [KIND_READ] = "read ",  [KIND_WRITE] = "write ",   [KIND_ALLOC] = "alloc ",
        [KIND_FREE] = "free ",     [KIND_FENCE] = "#fence ", [KIND_ATOMIC_LOAD] = "#load ", [KIND_ATOMIC_STORE] = "#store ",
    };
    switch (kind) {
    case KIND_NOTHING:
    case KIND_STOP:
    case KIND_SEND:
    case KIND_RECEIVE:
    case KIND_RELEASE:
    case KIND_ACQUIRE:
        break;
    case KIND_FORK:
    case KIND_JOIN:
    case KIND_LOCK:
    case KIND_READ_LOCK:
    case KIND_UNLOCK:
        put_pair(sink, verbs[kind], event);
        event_is_put(sink, event->code);
        break;
    case KIND_READ:
    case KIND_WRITE:
    case KIND_ALLOC:
    case KIND_FREE:
        put_range(sink, verbs[kind], event);
        break;
    case KIND_ATOMIC_LOAD:
    case KIND_ATOMIC_STORE:
    case KIND_FENCE:
        put_atomic(sink, verbs[kind], event);
        break;
    case KIND_LOCK_PLACE:
        put_lock_place(sink, event);
        break;
    case KIND_EARLY_BLOCK:
        put_early_block(sink, event);
        break;
    }
}

static bool goes_on(void)
{
    return !trace.failed && !is_at_limit();
}

/* False where the trace ends with this event. */
static bool put_event(const struct event *event)
{
    static bool has_begun;
    if (!has_begun) {
        has_begun = true;
        put_run_number();
    }
    if (event->kind == KIND_STOP) {
        return put_stop(event);
    }
    if (all_events.file >= 0) {
        put_lines(&all_events, event->kind & ~LEFT_OUT, event);
    }
    if (!(event->kind & LEFT_OUT)) {
        note_numbers(event);
        put_lines(&trace, event->kind, event);
    }
    return goes_on();
}

/* `send 0 17` or `recv 1 17`, in both traces. */
static void put_message_line(struct sink *sink, bool is_send, unsigned thread, uint32_t number)
{
    char *at = put_thread(sink, is_send ? "send " : "recv ", thread);
    *at++ = ' ';
    end_line(sink, put_decimal(at, number));
}

static bool put_message(bool is_send, unsigned thread, uint32_t number, uint64_t code)
{
    if (all_events.file >= 0) {
        put_message_line(&all_events, is_send, thread, number);
    }
    put_message_line(&trace, is_send, thread, number);
    event_is_put(&trace, code);
    return goes_on();
}

static void tell_end_of_messages(void)
{
    tell("hand-overs are left out from event %" PRIu64 " on: reports behind it may be false", events + 1);
}

/* ---- the program and its end ---- */

static void look_for_end_of_program(void)
{
    int status;
    if (program > 0 && program_status < 0 && waitpid(program, &status, WNOHANG) == program) {
        program_status = WIFSIGNALED(status) ? STATUS_SIGNAL + WTERMSIG(status) : WEXITSTATUS(status);
    }
}

/* The process that is recorded may be one that the program has begun, as a script does, and may outlive it. */
static bool has_ended(void)
{
    look_for_end_of_program();
    int owner = atomic_load(&ring->owner);
    if (!owner) {
        return program_status >= 0;
    }
    if (owner == program) {
        return program_status >= 0;
    }
    if (recorded < 0) {
        recorded = (int)syscall(SYS_pidfd_open, owner, 0);
    }
    struct pollfd ended = {.fd = recorded, .events = POLLIN};
    bool owner_has_ended = recorded < 0 || poll(&ended, 1, 0) == 1;
    return owner_has_ended && program_status >= 0;
}

static uint64_t milliseconds(void)
{
    struct timespec now;
    clock_gettime(CLOCK_MONOTONIC_COARSE, &now);
    return (uint64_t)now.tv_sec * 1000 + (uint64_t)now.tv_nsec / 1000000;
}

/* What was written leaves the ring. */
static void show_progress(void)
{
    atomic_store_explicit(&ring->taken, first_held(), memory_order_release);
}

/* Takes what is published in the ring. False where the trace ends there. */
static bool take_events(void)
{
    bool goes_on = true;
    for (uint64_t next = next_taken(); goes_on; next++) {
        struct event *event = &ring->events[next % RING_EVENTS];
        if (atomic_load_explicit(&event->published, memory_order_acquire) != next + 1) {
            break;
        }
        goes_on = take_event();
        if (next % 1024 == 0) {
            show_progress();
        }
    }
    goes_on = goes_on && write_old(milliseconds());
    show_progress();
    return goes_on;
}

/* Whether the next event has been missing for long while all others wait for it. */
static bool is_stuck(void)
{
    static uint64_t place;
    static unsigned looks;
    uint64_t taken = atomic_load(&ring->taken);
    bool is_full = atomic_load(&ring->next_ticket) - taken >= RING_EVENTS;
    looks = is_full && taken == place ? looks + 1 : 0;
    place = taken;
    return looks > MOST_LOOKS_FOR_ONE_EVENT;
}

/* Until the program has ended and all that it published is written. */
static void follow_program(void)
{
    struct timespec little = {.tv_nsec = 100 * 1000};
    unsigned idle = 0;
    for (;;) {
        uint64_t before = atomic_load(&ring->taken);
        uint64_t seen = next_taken();
        /* In this order: what it published before it ended is taken after. */
        bool is_last = has_ended();
        if (!take_events()) {
            return;
        }
        bool is_idle = atomic_load(&ring->taken) == before && next_taken() == seen;
        if (is_last && next_taken() == seen) {
            write_all();
            return;
        }
        if (is_idle && is_stuck()) {
            write_all();
            tell("the trace ends after %" PRIu64 " events: a thread was stopped in the midst of one", events);
            return;
        }
        if (is_idle) {
            if (++idle == 64) {
                /* Who reads along sees what has happened. */
                flush_outputs();
            }
            nanosleep(&little, NULL);
        } else {
            idle = 0;
        }
    }
}

static void wait_for_program(void)
{
    struct timespec little = {.tv_nsec = 1000 * 1000};
    while (!has_ended()) {
        nanosleep(&little, NULL);
    }
}

/* The terminal sends its signals to the program itself; another program may have meant this one alone. */
static void forward(int signal, siginfo_t *from, void *ignored)
{
    (void)ignored;
    int kept = errno;
    bool is_of_terminal = from->si_code > 0 && (signal == SIGINT || signal == SIGQUIT);
    if (program > 0 && !is_of_terminal) {
        kill(program, signal);
    }
    errno = kept;
}

/* ---- beginning ---- */

/* A file in memory. A limit for the sizes of files is none for it, where that can be helped. */
static int make_shared_file(size_t length)
{
    struct rlimit kept, wide;
    int file = memfd_create("hgd-record", MFD_CLOEXEC);
    getrlimit(RLIMIT_FSIZE, &kept);
    wide = kept;
    wide.rlim_cur = wide.rlim_max;
    setrlimit(RLIMIT_FSIZE, &wide);
    int failed = file < 0 || ftruncate(file, (off_t)length);
    setrlimit(RLIMIT_FSIZE, &kept);
    if (failed) {
        fail(STATUS_FAILED, "no memory for the events: %s", strerror(errno));
    }
    return file;
}

static void make_ring(const struct options *options)
{
    int file = make_shared_file(sizeof *ring);
    ring = mmap(NULL, sizeof *ring, PROT_READ | PROT_WRITE, MAP_SHARED, file, 0);
    if (ring == MAP_FAILED) {
        fail(STATUS_FAILED, "no memory for the events: %s", strerror(errno));
    }
    ring->magic = RING_MAGIC;
    ring->filter = options->unfiltered ? FILTER_MARKS : options->filter ? FILTER_LEAVES_OUT : FILTER_NOTHING;
    ring->comments = options->comments;
    ring->messages = options->messages != MESSAGES_NONE;
    ring->wants_codes = options->pcs != NULL;
    ring->wants_stacks = options->pcs != NULL && options->stacks;
    atomic_store(&ring->reader, (int32_t)getpid());
    char name[64];
    snprintf(name, sizeof name, "/proc/%d/fd/%d", (int)getpid(), file);
    setenv(RING_VARIABLE, name, 1);
}

/* Descriptors 0 to 2 are never given to a file of this program's: what the recorded program prints would go there. */
static void fill_standard_streams(void)
{
    int file = open("/dev/null", O_RDWR);
    while (file >= 0 && file <= STDERR_FILENO) {
        file = open("/dev/null", O_RDWR);
    }
    if (file > STDERR_FILENO) {
        close(file);
    }
}

static bool is_closed(int file)
{
    return fcntl(file, F_GETFD) < 0 && errno == EBADF;
}

static void open_sink(struct sink *sink, const char *name)
{
    sink->name = name;
    sink->file = open(name, O_WRONLY | O_CREAT | O_TRUNC | O_CLOEXEC, 0666);
    if (sink->file < 0) {
        fail(STATUS_FAILED, "%s: %s", name, strerror(errno));
    }
}

static void reset_signals(void)
{
    static const int signals[] = {SIGPIPE, SIGXFSZ, SIGINT, SIGQUIT, SIGTERM, SIGHUP};
    for (size_t i = 0; i < sizeof signals / sizeof *signals; i++) {
        signal(signals[i], SIG_DFL);
    }
}

/* The signals of a terminal go to the program too: it decides what becomes of it, and the trace is written to its end. */
static void set_signals(void)
{
    static const int forwarded[] = {SIGINT, SIGQUIT, SIGTERM, SIGHUP};
    signal(SIGPIPE, SIG_IGN);
    signal(SIGXFSZ, SIG_IGN);
    struct sigaction action = {.sa_sigaction = forward, .sa_flags = SA_RESTART | SA_SIGINFO};
    for (size_t i = 0; i < sizeof forwarded / sizeof *forwarded; i++) {
        sigaction(forwarded[i], &action, NULL);
    }
}

static void run(const char *what, char *const *words)
{
    execvp(what, words);
    int status = errno == ENOENT ? STATUS_NOT_FOUND : STATUS_NOT_RUN;
    tell("%s: %s", what, strerror(errno));
    _exit(status);
}

/* The pipe is the trace's own place, where no file is asked for. */
static void start_detector(const struct options *options)
{
    struct sink *sink = options->output ? &into_detector : &trace;
    int ends[2];
    if (pipe2(ends, O_CLOEXEC)) {
        fail(STATUS_FAILED, "no pipe: %s", strerror(errno));
    }
    detector = fork();
    if (detector < 0) {
        fail(STATUS_FAILED, "no process for hgd: %s", strerror(errno));
    }
    if (detector == 0) {
        unsetenv(RING_VARIABLE);
        dup2(ends[0], STDIN_FILENO);
        char *check[] = {(char *)options->hgd, "check", NULL};
        char *feed[] = {(char *)options->hgd, "feed", (char *)options->directory, (char *)options->source, NULL};
        reset_signals();
        /* A signal from the terminal is for the program: hgd reads to the end of the trace. */
        signal(SIGINT, SIG_IGN);
        signal(SIGQUIT, SIG_IGN);
        run(options->hgd, options->check ? check : feed);
    }
    close(ends[0]);
    sink->file = ends[1];
    sink->name = "hgd";
}

static void start_program(const struct options *options, const bool *closed, bool output_is_taken)
{
    program = fork();
    if (program < 0) {
        fail(STATUS_FAILED, "no process for the program: %s", strerror(errno));
    }
    if (program == 0) {
        reset_signals();
        if (output_is_taken) {
            dup2(STDERR_FILENO, STDOUT_FILENO);
        }
        for (int file = 0; file <= STDERR_FILENO; file++) {
            if (closed[file]) {
                close(file);
            }
        }
        run(options->program[0], options->program);
    }
}

static void open_outputs(const struct options *options, bool is_output_closed)
{
    if (options->output && strcmp(options->output, "-") == 0) {
        trace.name = "standard output";
        trace.file = is_output_closed ? -1 : STDOUT_FILENO;
        trace.failed = is_output_closed;
    } else if (options->output) {
        open_sink(&trace, options->output);
    }
    if (options->pcs) {
        open_sink(&codes, options->pcs);
    }
    if (options->unfiltered) {
        open_sink(&all_events, options->unfiltered);
    }
    if (options->check || options->directory) {
        start_detector(options);
    }
}

/* ---- what is told at the end ---- */

static void tell_counts(void)
{
    static const char *const told[COUNTS] = {
        [COUNT_SEMAPHORES] = "semaphore posts",
        [COUNT_BARRIERS] = "arrivals at barriers",
        [COUNT_CONDITIONS] = "signals of condition variables",
        [COUNT_ATOMICS] = "atomic accesses",
        [COUNT_IN_HANDLERS] = "accesses of signal handlers that interrupted the recorder are not in the trace",
        [COUNT_OTHERS_UNLOCKS] = "locks were let go by a thread that did not hold them: the trace has the holder let them go",
        [COUNT_HOLDS_OVER_64] = "holds are not in the trace: the thread held 64 locks already",
        [COUNT_STALE_HOLDS] = "locks were made anew while they were held: they have new numbers",
        [COUNT_UNKNOWN_THREADS] = "threads are not in the trace: they were not begun by pthread_create",
        [COUNT_LARGE_UNMAPS] = "areas above 1 GiB were unmapped: the trace does not free them",
        [COUNT_FORKED_PROCESSES] = "processes were forked: what they did is not in the trace",
        [COUNT_OTHER_PROGRAMS] = "other programs built with hgd-cc were started: they were not recorded",
        [COUNT_LOST_MESSAGES] = "hand-overs are not in the trace: there was no room for them",
        [COUNT_ANNOTATIONS] = "hand-overs that the program tells of",
        [COUNT_BENIGN] = "accesses of memory whose races the program calls benign are not in the trace",
        [COUNT_IGNORED] = "accesses that the program asks to ignore are not in the trace",
        [COUNT_UNSAID] = "annotations of the program are not in the trace: it has no word for them",
        [COUNT_LOST_STACKS] = "events have no call stack: there was no room for it",
        [COUNT_FIBERS] = "switches of fibers: the trace has the thread that ran them",
    };
    for (int i = 0; i < COUNTS; i++) {
        uint64_t counted = atomic_load(&ring->counts[i]);
        if (counted) {
            bool is_left_out = messages == MESSAGES_NONE && (i <= COUNT_CONDITIONS || i == COUNT_ANNOTATIONS);
            tell("%" PRIu64 " %s%s", counted, told[i], is_left_out ? ": the trace has no messages of them" : "");
        }
    }
}

static void tell_end(void)
{
    uint64_t left_out = 0;
    for (int i = 0; i < MOST_THREADS; i++) {
        left_out += ring->left_out[i].value;
    }
    tell("%" PRIu64 " events, %d threads, %d locks; %" PRIu64 " accesses left out, since they change nothing; %" PRIu64 " comments", events,
         most_thread + 1, locks_seen + 1, left_out, lines_of_comments);
    struct message_counts counted = message_counts();
    if (counted.pairs && counted.late) {
        tell("%" PRIu64 " messages, %" PRIu64 " of them later than what they tell of", counted.pairs, counted.late);
    } else if (counted.pairs) {
        tell("%" PRIu64 " messages", counted.pairs);
    }
    if (counted.forgotten) {
        tell("%" PRIu64 " times there was no room for what was handed over: reports may be false", counted.forgotten);
    }
    if (ring->left_out_alone.value) {
        tell("%" PRIu64 " accesses left out, since all other threads had been joined", ring->left_out_alone.value);
    }
    tell_counts();
}

static void close_sink(struct sink *sink)
{
    if (sink->file > STDERR_FILENO && close(sink->file)) {
        tell("%s: %s", sink->name, strerror(errno));
        sink->failed = true;
    }
}

static void finish_sinks(void)
{
    flush_outputs();
    if (all_events.file >= 0) {
        flush_sink(&all_events);
    }
    close_sink(&trace);
    close_sink(&into_detector);
}

/* A file that nothing was written to tells nothing. */
static void remove_empty(const struct sink *sink)
{
    struct stat found;
    if (sink->file > STDERR_FILENO && lstat(sink->name, &found) == 0 && S_ISREG(found.st_mode) && found.st_size == 0) {
        unlink(sink->name);
    }
}

static void wait_for_detector(void)
{
    int status = 0;
    while (detector > 0 && waitpid(detector, &status, 0) < 0 && errno == EINTR) {
    }
    detector_status = WIFSIGNALED(status) ? STATUS_SIGNAL + WTERMSIG(status) : WEXITSTATUS(status);
}

/* hgd-report lies beside this program. */
static int report_races(const struct options *options)
{
    char path[4096];
    ssize_t used = readlink("/proc/self/exe", path, sizeof path - sizeof "hgd-report");
    char *name = used > 0 ? memrchr(path, '/', (size_t)used) : NULL;
    strcpy(name ? name + 1 : path, "hgd-report");
    pid_t reporter = fork();
    if (reporter < 0) {
        tell("no process for hgd-report: %s", strerror(errno));
        return STATUS_FAILED;
    }
    if (reporter == 0) {
        reset_signals();
        char *words[] = {"hgd-report", "--hgd", (char *)options->hgd, (char *)options->output, (char *)options->pcs, NULL};
        run(path, words);
    }
    int status = 0;
    while (waitpid(reporter, &status, 0) < 0 && errno == EINTR) {
    }
    return WIFSIGNALED(status) ? STATUS_SIGNAL + WTERMSIG(status) : WEXITSTATUS(status);
}

static int final_status(void)
{
    if (!atomic_load(&ring->owner) && program_status == 0) {
        return STATUS_FAILED;
    }
    if (program_status == 0 && detector_status) {
        return detector_status;
    }
    bool has_failed = trace.failed || codes.failed || into_detector.failed;
    return program_status == 0 && has_failed ? STATUS_FAILED : program_status;
}

/* ---- the command line ---- */

static uint64_t read_limit(const char *text)
{
    char *end;
    errno = 0;
    uint64_t number = strtoull(text, &end, 10);
    if (errno || *end || end == text || *text == '-' || number == 0) {
        fail(STATUS_FAILED, "a limit is a number above 0, and not `%s`", text);
    }
    return number;
}

static enum messages read_messages(const char *word)
{
    static const char *const known[] = {
        [MESSAGES_NONE] = "none", [MESSAGES_WAITS] = "waits", [MESSAGES_READ] = "read", [MESSAGES_LOCKS] = "locks"};
    for (size_t i = 0; i < sizeof known / sizeof *known; i++) {
        if (strcmp(word, known[i]) == 0) {
            return (enum messages)i;
        }
    }
    fail(STATUS_FAILED, "messages are none, waits, read or locks, and not `%s`", word);
}

enum {
    OPTION_CHECK = 256,
    OPTION_FEED,
    OPTION_REPORT,
    OPTION_HGD,
    OPTION_MESSAGES,
    OPTION_NO_HAND_OVERS,
    OPTION_NO_COMMENTS,
    OPTION_NO_STACKS,
    OPTION_UNFILTERED,
};

static void take_option(struct options *options, int option, int number, char **words)
{
    switch (option) {
    case 'o':
        options->output = optarg;
        break;
    case 'p':
        options->pcs = optarg;
        break;
    case 'n':
        options->filter = false;
        break;
    case 'l':
        options->limit = read_limit(optarg);
        break;
    case 'q':
        options->quiet = true;
        break;
    case 'h':
        fputs(HELP, stdout);
        exit(fflush(stdout) ? STATUS_FAILED : 0);
    case OPTION_CHECK:
        options->check = true;
        break;
    case OPTION_FEED:
        options->directory = optarg;
        if (optind >= number) {
            fail(STATUS_FAILED, "--feed needs a DIR and a SOURCE");
        }
        options->source = words[optind++];
        break;
    case OPTION_REPORT:
        options->report = true;
        break;
    case OPTION_HGD:
        options->hgd = optarg;
        break;
    case OPTION_MESSAGES:
        options->messages = read_messages(optarg);
        break;
    case OPTION_NO_HAND_OVERS:
        options->messages = MESSAGES_NONE;
        break;
    case OPTION_NO_COMMENTS:
        options->comments = false;
        break;
    case OPTION_NO_STACKS:
        options->stacks = false;
        break;
    case OPTION_UNFILTERED:
        options->unfiltered = optarg;
        break;
    default:
        fail(STATUS_FAILED, "hgd-record --help tells the options");
    }
}

static const char *default_name(const char *program_name, const char *ending)
{
    char *made;
    const char *last = strrchr(program_name, '/');
    if (asprintf(&made, "%s%s", last ? last + 1 : program_name, ending) < 0) {
        fail(STATUS_FAILED, "no memory for a name");
    }
    return made;
}

static struct options read_options(int number, char **words)
{
    static const struct option known[] = {
        {"output", required_argument, NULL, 'o'},       {"check", no_argument, NULL, OPTION_CHECK},
        {"feed", required_argument, NULL, OPTION_FEED}, {"hgd", required_argument, NULL, OPTION_HGD},
        {"report", no_argument, NULL, OPTION_REPORT},
        {"pcs", required_argument, NULL, 'p'},          {"no-filter", no_argument, NULL, 'n'},
        {"limit", required_argument, NULL, 'l'},        {"no-comments", no_argument, NULL, OPTION_NO_COMMENTS},
        {"no-stacks", no_argument, NULL, OPTION_NO_STACKS}, {"unfiltered", required_argument, NULL, OPTION_UNFILTERED},
        {"messages", required_argument, NULL, OPTION_MESSAGES}, {"no-hand-overs", no_argument, NULL, OPTION_NO_HAND_OVERS},
        {"quiet", no_argument, NULL, 'q'},              {"help", no_argument, NULL, 'h'},
        {NULL, 0, NULL, 0},
    };
    struct options options = {.filter = true, .comments = true, .stacks = true, .messages = MESSAGES_READ, .hgd = getenv("HGD")};
    int option;
    while ((option = getopt_long(number, words, "+o:p:nl:qh", known, NULL)) != -1) {
        take_option(&options, option, number, words);
    }
    if (optind >= number) {
        fail(STATUS_FAILED, "no program is named; hgd-record --help tells more");
    }
    bool is_read_along = options.check || options.directory;
    if (options.check && options.directory) {
        fail(STATUS_FAILED, "one of --check and --feed");
    }
    if (is_read_along && options.output && strcmp(options.output, "-") == 0) {
        fail(STATUS_FAILED, "standard output has the lines of hgd: the trace needs a file");
    }
    options.program = words + optind;
    options.hgd = options.hgd && *options.hgd ? options.hgd : "hgd";
    if (options.report && (is_read_along || (options.output && strcmp(options.output, "-") == 0))) {
        fail(STATUS_FAILED, "--report reads a file at the end: it goes without --check and --feed");
    }
    options.output = options.output || is_read_along ? options.output : default_name(options.program[0], ".trace");
    options.pcs = options.pcs || !options.report ? options.pcs : default_name(options.program[0], ".codes");
    return options;
}

int main(int number, char **words)
{
    static const struct writer writer = {.put_event = put_event, .put_message = put_message, .messages_end = tell_end_of_messages};
    bool closed[] = {is_closed(STDIN_FILENO), is_closed(STDOUT_FILENO), is_closed(STDERR_FILENO)};
    fill_standard_streams();
    struct options options = read_options(number, words);
    limit = options.limit;
    is_quiet = options.quiet;
    puts_comments = options.comments;
    messages = options.messages;
    bool is_read_along = options.check || options.directory || strcmp(options.output, "-") == 0;
    if (getrandom(&run_number, sizeof run_number, GRND_NONBLOCK) != sizeof run_number) {
        run_number = (uint64_t)time(NULL) << 32 | (uint32_t)getpid();
    }
    set_signals();
    make_ring(&options);
    begin_hand_overs(messages, is_read_along ? LONGEST_HOLD_READ_ALONG : LONGEST_HOLD, ring->events, &writer);
    open_outputs(&options, closed[STDOUT_FILENO]);
    start_program(&options, closed, is_read_along);
    follow_program();
    atomic_store(&ring->closed, 1);
    finish_sinks();
    wait_for_program();
    wait_for_detector();
    if (!atomic_load(&ring->owner)) {
        tell("%s: nothing was recorded: no program that was built with hgd-cc has run", options.program[0]);
        remove_empty(&trace);
        remove_empty(&codes);
        remove_empty(&all_events);
    } else if (!is_quiet) {
        tell_end();
    }
    int status = final_status();
    if (options.report && atomic_load(&ring->owner) && !trace.failed && !codes.failed) {
        int reported = report_races(&options);
        return status ? status : reported;
    }
    return status;
}
