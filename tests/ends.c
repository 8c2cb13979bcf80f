// Late and failed input and output of a program that reads document 01's stream and prints its
// lines: ends program|dock PROGRAM FOLDER. The folder has two inputs, the lines owed for each, and
// faults.so. A dock has exit statuses, a program in Rattle always 0. Ends with 0 if all is so.

#define _GNU_SOURCE

#include <errno.h>
#include <fcntl.h>
#include <poll.h>
#include <signal.h>
#include <stdarg.h>
#include <stdbool.h>
#include <stdio.h>
#include <stdlib.h>
#include <string.h>
#include <sys/resource.h>
#include <sys/socket.h>
#include <sys/wait.h>
#include <termios.h>
#include <time.h>
#include <unistd.h>

#define TEXT_MOST (4 << 20)
#define PATH_MOST 4096

// A program that doesn't end by itself is ended after so many seconds.
#define LONGEST_RUN 30

// How many seconds a program is left waiting, and how many of them it may be busy.
#define WAITING 0.6
#define BUSY_MOST 0.1

// The small input is table A with the rows of P2: where head and table end, the first and the
// second row, the input; and where the lines of two rows end.
enum { TABLE_END = 39, FIRST_END = 43, SECOND_END = 47, INPUT_END = 51 };
enum { TWO_ROWS_LINES = 45 };

#define CLOSED (-1)

struct text {
    char bytes[TEXT_MOST];
    size_t length;
};

static struct text small_input, small_owed, large_owed;

// What the run at hand has written to its output and to standard error.
static struct text given, said;

static const char reading_failed[] = "glasspuddle: reading failed";
static const char writing_failed[] = "glasspuddle: writing failed";

static const char *program;
static const char *folder;
static bool is_dock;

static pid_t child;
static int status;
static char run_name[200];
static unsigned runs;
static unsigned failures;

// How the next run is started, beside its two descriptors.
static bool sigpipe_is_ignored;
static bool files_are_short;
static bool day_is_bad;

static _Noreturn void give_up(const char *what) {
    printf("ends: %s: %s\n", what, strerror(errno));
    exit(2);
}

static int must(int answer, const char *what) {
    if (answer < 0) {
        give_up(what);
    }
    return answer;
}

// Of a run the first fault is reported.
static void fault(const char *what) {
    static unsigned last;
    if (last != runs) {
        printf("ends: %s: %s: %s\n", program, run_name, what);
        failures++;
        last = runs;
    }
}

static void pause_for(double seconds) {
    struct timespec time = {(time_t)seconds, (long)(1e9 * (seconds - (double)(time_t)seconds))};
    while (nanosleep(&time, &time) < 0 && errno == EINTR) {
    }
}

// ---- descriptors

static const char *in_folder(const char *name) {
    static char path[PATH_MOST];
    snprintf(path, sizeof path, "%s/%s", folder, name);
    return path;
}

static int opened(const char *path, int how) {
    return must(open(path, how | O_CLOEXEC | O_NOCTTY, 0666), path);
}

static int input_file(const char *name) {
    return opened(in_folder(name), O_RDONLY);
}

static int output_file(const char *name) {
    return opened(in_folder(name), O_RDWR | O_CREAT | O_TRUNC);
}

static void close_end(int descriptor) {
    if (descriptor != CLOSED) {
        must(close(descriptor), "close");
    }
}

struct two {
    int from;
    int to;
};

// A pipe whose ends wait, or don't.
static struct two make_pipe(bool from_waits, bool to_waits) {
    int ends[2];
    must(pipe2(ends, O_CLOEXEC), "pipe2");
    must(fcntl(ends[0], F_SETFL, from_waits ? 0 : O_NONBLOCK), "fcntl");
    must(fcntl(ends[1], F_SETFL, to_waits ? 0 : O_NONBLOCK), "fcntl");
    return (struct two){ends[0], ends[1]};
}

// A socket whose input doesn't wait, and who sends to it.
static struct two make_sockets(void) {
    int ends[2];
    must(socketpair(AF_UNIX, SOCK_STREAM | SOCK_CLOEXEC, 0, ends), "socketpair");
    must(fcntl(ends[0], F_SETFL, O_NONBLOCK), "fcntl");
    return (struct two){ends[0], ends[1]};
}

// A terminal, and who sits at it. It passes bytes as they are but for the tilde, which no input here
// has: that hands over what is typed, and ends the input where nothing is.
static struct two make_terminal(void) {
    struct termios how;
    int master = must(posix_openpt(O_RDWR | O_NOCTTY | O_CLOEXEC), "posix_openpt");
    must(grantpt(master), "grantpt");
    must(unlockpt(master), "unlockpt");
    int terminal = opened(ptsname(master), O_RDWR);
    must(tcgetattr(terminal, &how), "tcgetattr");
    cfmakeraw(&how);
    how.c_lflag |= ICANON;
    memset(how.c_cc, _POSIX_VDISABLE, sizeof how.c_cc);
    how.c_cc[VEOF] = '~';
    must(tcsetattr(terminal, TCSANOW, &how), "tcsetattr");
    return (struct two){terminal, master};
}

// Adds what can be read until there are so many bytes. A terminal that nobody writes to any more
// ends with an error.
static void read_up_to(int descriptor, struct text *text, size_t most) {
    while (text->length < most) {
        ssize_t got = read(descriptor, text->bytes + text->length, most - text->length);
        if (got <= 0) {
            return;
        }
        text->length += (size_t)got;
    }
}

static void load(const char *name, struct text *text) {
    int descriptor = input_file(name);
    text->length = 0;
    read_up_to(descriptor, text, TEXT_MOST);
    close_end(descriptor);
}

static void feed(int descriptor, const char *bytes, size_t length) {
    if (write(descriptor, bytes, length) != (ssize_t)length) {
        fault("it doesn't take its input");
    }
}

static void feed_small(int descriptor, size_t from, size_t to) {
    feed(descriptor, small_input.bytes + from, to - from);
}

// ---- a run

static void put_in_place(int descriptor, int place) {
    if (descriptor == CLOSED) {
        close(place);
    } else if (dup2(descriptor, place) < 0) {
        _exit(127);
    }
}

// Starts the program on these two descriptors, and closes them here.
static void start(int input, int output, const char *name, ...) {
    va_list numbers;
    va_start(numbers, name);
    vsnprintf(run_name, sizeof run_name, name, numbers);
    va_end(numbers);
    runs++;
    given.length = 0;
    int error = output_file("said");
    fflush(stdout);
    child = must(fork(), "fork");
    if (child == 0) {
        const struct rlimit short_file = {300000, 300000};
        put_in_place(input, STDIN_FILENO);
        put_in_place(output, STDOUT_FILENO);
        put_in_place(error, STDERR_FILENO);
        signal(SIGPIPE, sigpipe_is_ignored ? SIG_IGN : SIG_DFL);
        if (files_are_short) {
            signal(SIGXFSZ, SIG_IGN);
            setrlimit(RLIMIT_FSIZE, &short_file);
        }
        if (day_is_bad) {
            setenv("LD_PRELOAD", in_folder("faults.so"), 1);
        }
        alarm(LONGEST_RUN);
        execl(program, program, (char *)NULL);
        _exit(127);
    }
    close_end(input);
    close_end(output);
    close_end(error);
    sigpipe_is_ignored = files_are_short = day_is_bad = false;
}

static double seconds_by(clockid_t clock) {
    struct timespec time = {0, 0};
    clock_gettime(clock, &time);
    return (double)time.tv_sec + 1e-9 * (double)time.tv_nsec;
}

// The program waits. It may look now and then whether something is ready.
static void leave_waiting(void) {
    clockid_t work;
    pause_for(0.1);
    if (clock_getcpuclockid(child, &work) != 0) {
        fault("it has ended where it should wait");
        return;
    }
    double before = seconds_by(work);
    pause_for(WAITING);
    if (BUSY_MOST < seconds_by(work) - before) {
        fault("it is busy while it waits");
    }
}

static void wait_for_end(void) {
    must(waitpid(child, &status, 0), "waitpid");
    load("said", &said);
    if (WIFEXITED(status) && WEXITSTATUS(status) == 127) {
        fault("it can't be started");
    }
    if (WIFSIGNALED(status) && WTERMSIG(status) == SIGALRM) {
        fault("it doesn't end");
    }
}

// The same, where the output is a file, and where it is a pipe's or a terminal's other end.
static void wait_for_file(void) {
    wait_for_end();
    load("given", &given);
}

static void wait_for_output(int output) {
    read_up_to(output, &given, TEXT_MOST);
    close_end(output);
    wait_for_end();
}

// ---- what is expected of it

// Whether the last line on standard error begins like this.
static bool says_last(const char *message) {
    size_t line = said.length;
    while (line > 0 && (line == said.length || said.bytes[line - 1] != '\n')) {
        line--;
    }
    return strlen(message) <= said.length - line &&
           memcmp(said.bytes + line, message, strlen(message)) == 0;
}

static void expect_status(int wanted) {
    if (!WIFEXITED(status) || WEXITSTATUS(status) != (is_dock ? wanted : 0)) {
        fault("another exit status, or a signal");
    }
}

static bool begins(const struct text *owed) {
    return given.length <= owed->length && memcmp(given.bytes, owed->bytes, given.length) == 0;
}

static bool is_whole(const struct text *owed) {
    return given.length == owed->length && begins(owed);
}

// A regular run: every line, no message.
static void expect_whole(const struct text *owed) {
    if (!is_whole(owed)) {
        fault("not the lines owed");
    }
    if (says_last("glasspuddle: ")) {
        fault("a message in a regular run");
    }
    expect_status(0);
}

// A broken run: the lines owed up to some place, at least so many bytes and not all, so that `end`
// isn't there; and the message.
static void expect_broken(const struct text *owed, size_t least, const char *message) {
    if (!begins(owed)) {
        fault("other lines than those owed");
    }
    if (given.length == owed->length) {
        fault("it looks like a regular run");
    }
    if (given.length < least) {
        fault("lines that were owed before are missing");
    }
    if (!says_last(message)) {
        fault("no message, or another one");
    }
    expect_status(1);
}

// ---- regular runs, the other side of all that follows

static void regular(const char *name, const struct text *owed) {
    start(input_file(name), output_file("given"), "the %s input from a file", name);
    wait_for_file();
    expect_whole(owed);
}

// ---- input that comes late, with rows cut in the middle

static void late_input(struct two input, const char *name) {
    static const size_t cuts[] = {1, 2, 20, TABLE_END, FIRST_END - 1, FIRST_END, SECOND_END + 2};
    size_t fed = 0;
    start(input.from, output_file("given"), "late input%s", name);
    for (size_t i = 0; i < sizeof cuts / sizeof cuts[0]; i++) {
        feed_small(input.to, fed, cuts[i]);
        fed = cuts[i];
        pause_for(0.03);
    }
    leave_waiting();
    feed_small(input.to, fed, INPUT_END);
    pause_for(0.03);
    close_end(input.to);
    wait_for_file();
    expect_whole(&small_owed);
}

// The program is stopped and continued while it waits.
static void stopped(bool waits) {
    struct two input = make_pipe(waits, true);
    start(input.from, output_file("given"), "stopped%s", waits ? "" : ", input not blocking");
    feed_small(input.to, 0, SECOND_END);
    for (int i = 0; i < 3; i++) {
        pause_for(0.05);
        must(kill(child, SIGSTOP), "kill");
        pause_for(0.02);
        must(kill(child, SIGCONT), "kill");
    }
    feed_small(input.to, SECOND_END, INPUT_END);
    close_end(input.to);
    wait_for_file();
    expect_whole(&small_owed);
}

// ---- output that is taken late, more than a pipe holds

static void late_output(bool waits) {
    struct two output = make_pipe(true, waits);
    start(input_file("large"), output.to, "output taken late%s", waits ? "" : ", not blocking");
    leave_waiting();
    for (size_t some = 1000; some < large_owed.length; some += large_owed.length / 20) {
        read_up_to(output.from, &given, some);
        pause_for(0.01);
    }
    wait_for_output(output.from);
    expect_whole(&large_owed);
}

// ---- output that fails

static void failed_output(int output, const char *name) {
    start(input_file("small"), output, "%s", name);
    wait_for_end();
    expect_broken(&small_owed, 0, writing_failed);
}

static void output_that_fills_up(void) {
    files_are_short = true;
    start(input_file("large"), output_file("given"), "output that takes 300,000 bytes");
    wait_for_file();
    expect_broken(&large_owed, 300000, writing_failed);
}

// Whoever takes the output goes after so many bytes. The program and the docks ignore the signal for
// that, whether whoever started them does or not.
static void reader_gone(size_t after, bool ignored) {
    struct two output = make_pipe(true, true);
    if (after == 0) {
        close_end(output.from);
    }
    sigpipe_is_ignored = ignored;
    start(input_file("large"), output.to, "output's reader gone after %zu bytes%s", after,
          ignored ? ", SIGPIPE ignored" : "");
    if (after > 0) {
        read_up_to(output.from, &given, after);
        close_end(output.from);
    }
    wait_for_end();
    expect_broken(&large_owed, after, writing_failed);
}

static void output_hangs_up(void) {
    struct two output = make_terminal();
    start(input_file("large"), output.from, "a terminal for the output, hung up");
    read_up_to(output.to, &given, 1000);
    close_end(output.to);
    wait_for_end();
    expect_broken(&large_owed, 1000, writing_failed);
}

// ---- input that fails

static void failed_input(int input, const char *name) {
    start(input, output_file("given"), "%s", name);
    wait_for_file();
    expect_broken(&small_owed, 0, reading_failed);
}

static void nothing_open(void) {
    start(CLOSED, CLOSED, "input and output closed");
    wait_for_end();
    expect_broken(&small_owed, 0, "glasspuddle: ");
}

// Two rows are answered, the third is awaited.
static void await_answer(int output) {
    struct pollfd wanted = {.fd = output, .events = POLLIN};
    while (given.length < TWO_ROWS_LINES && poll(&wanted, 1, 5000) > 0) {
        size_t before = given.length;
        read_up_to(output, &given, before + 1);
        if (given.length == before) {
            break;
        }
    }
    if (given.length < TWO_ROWS_LINES) {
        fault("two rows aren't answered while the third is awaited");
    }
}

enum ending { ENDS, HANGS_UP, HANGS_UP_UNSEEN };

// At a terminal: after two rows the third and the end, or half of it and the terminal hangs up. A
// program that is stopped meanwhile then reads an end and no error.
static void input_from_terminal(enum ending ending, const char *name) {
    struct two input = make_terminal();
    struct two output = make_pipe(true, true);
    start(input.from, output.to, "a terminal for the input, %s", name);
    feed_small(input.to, 0, SECOND_END);
    feed(input.to, "~", 1);
    await_answer(output.from);
    feed_small(input.to, SECOND_END, ending == ENDS ? INPUT_END : SECOND_END + 2);
    feed(input.to, "~", 1);
    if (ending == ENDS) {
        feed(input.to, "~", 1);
        wait_for_output(output.from);
        close_end(input.to);
        expect_whole(&small_owed);
        return;
    }
    pause_for(0.05);
    if (ending == HANGS_UP_UNSEEN) {
        must(kill(child, SIGSTOP), "kill");
        pause_for(0.05);
    }
    close_end(input.to);
    pause_for(0.05);
    must(kill(child, SIGCONT), "kill");
    wait_for_output(output.from);
    expect_broken(&small_owed, TWO_ROWS_LINES, reading_failed);
}

// Whoever feeds the rows breaks off with something left that it hasn't read.
static void input_reset(void) {
    int ends[2];
    struct two output = make_pipe(true, true);
    must(socketpair(AF_UNIX, SOCK_STREAM | SOCK_CLOEXEC, 0, ends), "socketpair");
    int other = must(fcntl(ends[0], F_DUPFD_CLOEXEC, 0), "fcntl");
    start(ends[0], output.to, "a socket for the input, reset");
    feed_small(ends[1], 0, SECOND_END);
    await_answer(output.from);
    feed(other, "?", 1);
    close_end(ends[1]);
    wait_for_output(output.from);
    close_end(other);
    expect_broken(&small_owed, TWO_ROWS_LINES, reading_failed);
}

// ---- a bad day: calls interrupted, not ready and short; one after the other of them fails

static void bad_day(const char *variable, const char *message) {
    unsigned before = failures;
    unsigned which = 0;
    bool over = false;
    while (!over && failures == before) {
        char number[20];
        which++;
        snprintf(number, sizeof number, "%u", which);
        setenv(variable, number, 1);
        day_is_bad = true;
        start(input_file("small"), output_file("given"), "a bad day, %s %u", variable, which);
        unsetenv(variable);
        wait_for_file();
        over = is_whole(&small_owed);
        if (over) {
            expect_whole(&small_owed);
        } else {
            expect_broken(&small_owed, 0, message);
        }
    }
    if (which < 5) {
        fault("too few calls: is faults.so there?");
    }
}

int main(int count, char **arguments) {
    if (count != 4 || (strcmp(arguments[1], "dock") != 0 && strcmp(arguments[1], "program") != 0)) {
        printf("usage: ends program|dock PROGRAM FOLDER\n");
        return 2;
    }
    is_dock = strcmp(arguments[1], "dock") == 0;
    program = arguments[2];
    folder = arguments[3];
    signal(SIGPIPE, SIG_IGN);
    load("small", &small_input);
    load("small.owed", &small_owed);
    load("large.owed", &large_owed);

    regular("small", &small_owed);
    regular("large", &large_owed);
    late_input(make_pipe(true, true), "");
    late_input(make_pipe(false, true), ", not blocking");
    late_input(make_sockets(), ", a socket, not blocking");
    stopped(true);
    stopped(false);
    late_output(true);
    late_output(false);

    failed_output(opened("/dev/full", O_WRONLY), "a full device for the output");
    failed_output(opened("/dev/null", O_RDONLY), "output open for reading");
    failed_output(CLOSED, "output closed");
    output_that_fills_up();
    reader_gone(0, true);
    reader_gone(0, false);
    reader_gone(1000, true);
    reader_gone(1000, false);
    output_hangs_up();

    failed_input(opened("/", O_RDONLY), "a directory for the input");
    failed_input(opened("/dev/null", O_WRONLY), "input open for writing");
    failed_input(CLOSED, "input closed");
    nothing_open();
    input_from_terminal(ENDS, "ended");
    input_from_terminal(HANGS_UP, "hung up");
    input_from_terminal(HANGS_UP_UNSEEN, "hung up while stopped");
    input_reset();

    bad_day("FAILED_READ", reading_failed);
    bad_day("FAILED_WRITE", writing_failed);

    if (failures == 0) {
        printf("ends: %s: %u runs, regular, late and broken, as they should be\n", program, runs);
    }
    return failures != 0;
}
