/* A Unix domain socket before the server `names`: up to eight clients at once, each over a connection of its own.
 *
 * build:  cc -std=c11 -D_POSIX_C_SOURCE=200809L -Wall -Wextra -O2 -o names_socket examples/socket.c
 * run:    names_socket NAMES FOLDER SOCKET
 * try:    printf 'create alpha first\nlist\n' | nc -N -U SOCKET
 *
 * NAMES is the program `names`, FOLDER has the store that `names --help` tells how to make, and SOCKET is the path of
 * the socket. It starts `NAMES FOLDER` with two pipes. A connection gets the lowest number of a client that is free.
 * Each line that it sends goes to the server with this number in front, and each line of a reply comes back without it.
 * So who has read a reply knows that the change is durable. While eight are connected, others wait.
 *
 * A line counts once its end has come. A client that sends no more still gets its replies. When it has them all, or is
 * gone, its number is free.
 *
 * Where the server ends by itself, each client gets the replies that there are, and then the end. What was asked and
 * has no reply may be done or not. The status is then 1. At SIGTERM or SIGINT no line is taken any more, and what was
 * taken is replied to; the status is 0. A client that does not take its replies within ten seconds of the server's end
 * is left. Wrong arguments have status 2.
 */
#include <errno.h>
#include <fcntl.h>
#include <poll.h>
#include <signal.h>
#include <spawn.h>
#include <stdbool.h>
#include <stdio.h>
#include <stdlib.h>
#include <string.h>
#include <sys/socket.h>
#include <sys/stat.h>
#include <sys/un.h>
#include <sys/wait.h>
#include <time.h>
#include <unistd.h>

extern char **environ;

enum {
    CLIENTS = 8,
    /* So many bytes of a line are kept. The server understands none that is so long. */
    LONGEST_LINE = 300,
    /* No reply is longer: a list has at most 64 names of 31 bytes, and a byte is shown as three at most. */
    LONGEST_REPLY = 8192,
    /* So many requests of a client are under way at most. So there is room for all requests, and for all replies. */
    MOST_REQUESTS = 8,
    ROOM_OF_REPLIES = MOST_REQUESTS * LONGEST_REPLY,
    ROOM_OF_REQUESTS = CLIENTS * MOST_REQUESTS * (2 + LONGEST_LINE + 1),
    LAST_SECONDS = 10,
    ONE_SECOND = 1000, /* in milliseconds */
    WRONG_ARGUMENTS = 2,
    LINE_NOT_UNDERSTOOD = 2 /* the server's status where it has refused a line */
};

/* Bytes that are still to be written, or that are no whole line yet. */
struct buffer {
    char *bytes;
    size_t length, room;
};

/* A connection; there is none where the descriptor is -1. */
struct client {
    int descriptor;
    bool has_ended; /* it sends no more */
    bool is_gone;   /* it takes no more */
    int under_way;  /* so many of its requests have no reply yet */
    struct buffer line, replies;
};

static struct client clients[CLIENTS];
static pid_t process;
static int to_server = -1, from_server = -1, listener = -1;
static struct buffer requests, reply;
static int wake[2];
static bool is_told_to_end;
static const char *path;

static void fail(const char *what)
{
    fprintf(stderr, "names_socket: %s: %s\n", what, strerror(errno));
    exit(EXIT_FAILURE);
}

/* ---- Buffers and descriptors */

static struct buffer buffer_of(size_t room)
{
    struct buffer buffer = {malloc(room), 0, room};
    if (buffer.bytes == NULL)
        fail("memory");
    return buffer;
}

/* Appends what there is room for; whether that is all. */
static bool append(struct buffer *buffer, const char *bytes, size_t length)
{
    size_t left = buffer->room - buffer->length;
    size_t kept = length < left ? length : left;
    memcpy(buffer->bytes + buffer->length, bytes, kept);
    buffer->length += kept;
    return kept == length;
}

static void drop_front(struct buffer *buffer, size_t length)
{
    buffer->length -= length;
    memmove(buffer->bytes, buffer->bytes + length, buffer->length);
}

static bool may_try_again(void)
{
    return errno == EAGAIN || errno == EWOULDBLOCK || errno == EINTR;
}

/* Writes the first bytes as far as they are taken now; false where nothing will be taken any more. */
static bool write_front(int descriptor, struct buffer *buffer, size_t length)
{
    ssize_t written = write(descriptor, buffer->bytes, length);
    if (written < 0)
        return may_try_again();
    drop_front(buffer, (size_t)written);
    return true;
}

static void close_on_exec(int descriptor)
{
    if (fcntl(descriptor, F_SETFD, FD_CLOEXEC) == -1)
        fail("fcntl");
}

static void never_wait(int descriptor)
{
    int flags = fcntl(descriptor, F_GETFL);
    if (flags == -1 || fcntl(descriptor, F_SETFL, flags | O_NONBLOCK) == -1)
        fail("fcntl");
}

static void make_pipe(int ends[2])
{
    if (pipe(ends) == -1)
        fail("pipe");
    close_on_exec(ends[0]);
    close_on_exec(ends[1]);
}

/* ---- From the clients to the server */

static bool may_send(const struct client *client)
{
    size_t wanted = (size_t)(client->under_way + 1) * LONGEST_REPLY;
    return to_server != -1 && !is_told_to_end && !client->has_ended && client->under_way < MOST_REQUESTS &&
           wanted <= client->replies.room - client->replies.length;
}

/* Puts the line of a client behind the requests. */
static void pass_line(struct client *client)
{
    char number[2] = {(char)('0' + (client - clients)), ' '};
    append(&requests, number, sizeof number);
    append(&requests, client->line.bytes, client->line.length);
    append(&requests, "\n", 1);
    client->line.length = 0;
    client->under_way++;
}

/* Takes a line or a part of one, and leaves what is behind it in the socket. */
static void read_client(struct client *client)
{
    char bytes[LONGEST_LINE];
    ssize_t seen = recv(client->descriptor, bytes, sizeof bytes, MSG_PEEK);
    if (seen < 0 && may_try_again())
        return;
    if (seen <= 0) {
        client->has_ended = true;
        return;
    }
    const char *end = memchr(bytes, '\n', (size_t)seen);
    size_t length = end == NULL ? (size_t)seen : (size_t)(end - bytes) + 1;
    ssize_t taken = recv(client->descriptor, bytes, length, 0);
    if (taken != (ssize_t)length)
        return; /* nobody else takes from it, so this is a read that was interrupted */
    append(&client->line, bytes, end == NULL ? length : length - 1);
    if (end != NULL)
        pass_line(client);
}

/* Writes the first request, if there is one. It is so short that a pipe takes all of it or nothing, so that the server
 * never finds a part of a line at an end. */
static bool write_request(void)
{
    const char *end = memchr(requests.bytes, '\n', requests.length);
    return end == NULL || write_front(to_server, &requests, (size_t)(end - requests.bytes) + 1);
}

static void close_server_input(void)
{
    if (to_server != -1)
        close(to_server);
    to_server = -1;
    requests.length = 0;
}

/* ---- From the server to the clients */

/* A line of a reply, with its end. A list alone has further lines, each a name. */
static void give_line(const char *line, size_t length)
{
    static const char further[] = "name ";
    if (length < 3 || line[0] < '0' || line[0] >= '0' + CLIENTS || line[1] != ' ') {
        fprintf(stderr, "names_socket: the server says: %.*s", (int)length, line);
        return;
    }
    struct client *client = &clients[line[0] - '0'];
    line += 2;
    length -= 2;
    if (length < sizeof further || memcmp(line, further, sizeof further - 1) != 0)
        client->under_way--;
    if (!client->is_gone && !append(&client->replies, line, length))
        client->is_gone = true;
}

/* What the server says now; false at its end. */
static bool read_server(void)
{
    ssize_t got = read(from_server, reply.bytes + reply.length, reply.room - reply.length);
    if (got < 0 && may_try_again())
        return true;
    if (got <= 0)
        return false;
    reply.length += (size_t)got;
    const char *end;
    while ((end = memchr(reply.bytes, '\n', reply.length)) != NULL) {
        size_t length = (size_t)(end - reply.bytes) + 1;
        give_line(reply.bytes, length);
        drop_front(&reply, length);
    }
    return reply.length < reply.room;
}

/* No more replies come. */
static void end_replies(void)
{
    close(from_server);
    from_server = -1;
    close_server_input();
    for (struct client *client = clients; client < clients + CLIENTS; client++) {
        client->has_ended = true;
        client->under_way = 0;
    }
}

/* ---- Connections */

static struct client *free_client(void)
{
    for (struct client *client = clients; client < clients + CLIENTS; client++)
        if (client->descriptor == -1)
            return client;
    return NULL;
}

static void take_connection(void)
{
    int descriptor = accept(listener, NULL, NULL);
    if (descriptor == -1) {
        if (may_try_again() || errno == ECONNABORTED)
            return;
        fail("accept");
    }
    close_on_exec(descriptor);
    never_wait(descriptor);
    struct client *client = free_client();
    client->descriptor = descriptor;
    client->has_ended = client->is_gone = false;
    client->under_way = 0;
    client->line.length = client->replies.length = 0;
}

/* Whether nothing is to come from a client or to go to it. */
static bool is_over(const struct client *client)
{
    bool has_all = client->replies.length == 0 || client->is_gone;
    return client->descriptor != -1 && (client->has_ended || to_server == -1) && client->under_way == 0 && has_all;
}

static void close_those_that_are_over(void)
{
    for (struct client *client = clients; client < clients + CLIENTS; client++)
        if (is_over(client)) {
            close(client->descriptor);
            client->descriptor = -1;
        }
}

static short events_of(const struct client *client)
{
    if (client->descriptor == -1)
        return 0;
    short events = may_send(client) ? POLLIN : 0;
    if (client->replies.length > 0 && !client->is_gone)
        events |= POLLOUT;
    return events;
}

static void serve_client(struct client *client, short events)
{
    if (events & POLLOUT && !write_front(client->descriptor, &client->replies, client->replies.length))
        client->is_gone = client->has_ended = true;
    if (events & POLLIN)
        read_client(client);
}

/* ---- The start */

static void note_signal(int number)
{
    int kept = errno;
    (void)number;
    (void)!write(wake[1], "", 1);
    errno = kept;
}

static void catch_signals(void)
{
    make_pipe(wake);
    never_wait(wake[1]);
    struct sigaction caught = {.sa_handler = note_signal}, ignored = {.sa_handler = SIG_IGN};
    sigemptyset(&caught.sa_mask);
    sigemptyset(&ignored.sa_mask);
    if (sigaction(SIGTERM, &caught, NULL) == -1 || sigaction(SIGINT, &caught, NULL) == -1 ||
        sigaction(SIGPIPE, &ignored, NULL) == -1)
        fail("sigaction");
}

/* A descriptor of this program does not take the place of one that is closed. */
static void open_standard_descriptors(void)
{
    int descriptor;
    do
        descriptor = open("/dev/null", O_RDWR);
    while (descriptor != -1 && descriptor <= STDERR_FILENO);
    if (descriptor == -1)
        fail("/dev/null");
    close(descriptor);
}

static void start_server(char *program, char *folder)
{
    char *command[] = {program, folder, NULL};
    int input[2], output[2];
    make_pipe(input);
    make_pipe(output);
    posix_spawn_file_actions_t actions;
    posix_spawnattr_t attributes;
    sigset_t as_ever;
    sigemptyset(&as_ever);
    sigaddset(&as_ever, SIGPIPE);
    errno = posix_spawn_file_actions_init(&actions);
    if (errno != 0 || (errno = posix_spawnattr_init(&attributes)) != 0 ||
        (errno = posix_spawn_file_actions_adddup2(&actions, input[0], STDIN_FILENO)) != 0 ||
        (errno = posix_spawn_file_actions_adddup2(&actions, output[1], STDOUT_FILENO)) != 0 ||
        (errno = posix_spawnattr_setsigdefault(&attributes, &as_ever)) != 0 ||
        (errno = posix_spawnattr_setflags(&attributes, POSIX_SPAWN_SETSIGDEF)) != 0 ||
        (errno = posix_spawnp(&process, program, &actions, &attributes, command, environ)) != 0)
        fail(program);
    posix_spawn_file_actions_destroy(&actions);
    posix_spawnattr_destroy(&attributes);
    close(input[0]);
    close(output[1]);
    to_server = input[1];
    from_server = output[0];
    never_wait(to_server);
    never_wait(from_server);
}

/* Whether a socket is there that nobody listens at, as one whose owner was killed leaves it. */
static bool is_left(const struct sockaddr_un *address)
{
    struct stat there;
    if (lstat(path, &there) == -1 || !S_ISSOCK(there.st_mode))
        return false;
    int probe = socket(AF_UNIX, SOCK_STREAM, 0);
    if (probe == -1)
        fail("socket");
    bool refused = connect(probe, (const struct sockaddr *)address, sizeof *address) == -1 && errno == ECONNREFUSED;
    close(probe);
    return refused;
}

static void start_listening(void)
{
    struct sockaddr_un address = {.sun_family = AF_UNIX};
    if (strlen(path) >= sizeof address.sun_path) {
        errno = ENAMETOOLONG;
        fail(path);
    }
    strcpy(address.sun_path, path);
    listener = socket(AF_UNIX, SOCK_STREAM, 0);
    if (listener == -1)
        fail("socket");
    close_on_exec(listener);
    never_wait(listener);
    int bound = bind(listener, (struct sockaddr *)&address, sizeof address);
    if (bound == -1 && errno == EADDRINUSE) {
        if (is_left(&address) && unlink(path) == 0)
            bound = bind(listener, (struct sockaddr *)&address, sizeof address);
        else
            errno = EADDRINUSE;
    }
    if (bound == -1 || listen(listener, SOMAXCONN) == -1)
        fail(path);
}

/* ---- The whole */

static bool is_anybody_here(void)
{
    for (const struct client *client = clients; client < clients + CLIENTS; client++)
        if (client->descriptor != -1)
            return true;
    return false;
}

static time_t seconds_now(void)
{
    struct timespec now;
    if (clock_gettime(CLOCK_MONOTONIC, &now) == -1)
        fail("clock");
    return now.tv_sec;
}

static struct pollfd waiting_for(int descriptor, short events)
{
    /* One with no event is left out: poll would tell of its end again and again. */
    return (struct pollfd){.fd = events == 0 ? -1 : descriptor, .events = events};
}

/* Waits until something can be done, and does it. */
static void take_turn(void)
{
    enum { WAKE, LISTENER, SERVER_INPUT, SERVER_OUTPUT, FIRST_CLIENT, ALL = FIRST_CLIENT + CLIENTS };
    struct pollfd polled[ALL];
    bool may_come = to_server != -1 && !is_told_to_end && free_client() != NULL;
    polled[WAKE] = waiting_for(wake[0], is_told_to_end ? 0 : POLLIN);
    polled[LISTENER] = waiting_for(listener, may_come ? POLLIN : 0);
    polled[SERVER_INPUT] = waiting_for(to_server, requests.length > 0 ? POLLOUT : 0);
    polled[SERVER_OUTPUT] = waiting_for(from_server, from_server != -1 ? POLLIN : 0);
    for (int number = 0; number < CLIENTS; number++)
        polled[FIRST_CLIENT + number] = waiting_for(clients[number].descriptor, events_of(&clients[number]));
    if (poll(polled, ALL, from_server == -1 ? ONE_SECOND : -1) == -1) {
        if (errno == EINTR)
            return;
        fail("poll");
    }
    if (polled[WAKE].revents)
        is_told_to_end = true;
    if (polled[SERVER_OUTPUT].revents && !read_server())
        end_replies();
    if (polled[SERVER_INPUT].revents && to_server != -1 && !write_request())
        close_server_input();
    for (int number = 0; number < CLIENTS; number++)
        if (polled[FIRST_CLIENT + number].revents)
            serve_client(&clients[number], polled[FIRST_CLIENT + number].events);
    if (polled[LISTENER].revents)
        take_connection();
    if (is_told_to_end && requests.length == 0)
        close_server_input();
    close_those_that_are_over();
}

int main(int count, char **words)
{
    if (count != 4) {
        fprintf(stderr, "usage: names_socket NAMES FOLDER SOCKET\n");
        return WRONG_ARGUMENTS;
    }
    path = words[3];
    open_standard_descriptors();
    catch_signals();
    requests = buffer_of(ROOM_OF_REQUESTS);
    reply = buffer_of(LONGEST_REPLY);
    for (struct client *client = clients; client < clients + CLIENTS; client++) {
        client->descriptor = -1;
        client->line = buffer_of(LONGEST_LINE);
        client->replies = buffer_of(ROOM_OF_REPLIES);
    }
    start_listening();
    start_server(words[1], words[2]);
    while (from_server != -1)
        take_turn();
    unlink(path);
    for (time_t last = seconds_now() + LAST_SECONDS; is_anybody_here() && seconds_now() < last;)
        take_turn();
    int status;
    while (waitpid(process, &status, 0) == -1)
        if (errno != EINTR)
            fail("waitpid");
    bool is_well = WIFEXITED(status) && (WEXITSTATUS(status) == 0 || WEXITSTATUS(status) == LINE_NOT_UNDERSTOOD);
    return is_told_to_end && is_well ? EXIT_SUCCESS : EXIT_FAILURE;
}
