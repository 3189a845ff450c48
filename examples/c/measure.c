/*
 * Measures the features of a program on a server of the I++ DME interface, keeps the record of the run in a file, and prints the features:
 *
 *     measure PORT SETUP PROGRAM RECORD [CONNECTIONS]
 *
 * If the connection breaks off, it makes a new one, CONNECTIONS in all (1 if left out), and measures what is left. Called again with the
 * same record it continues. What the server refuses is printed on standard error. Status: 0 all is measured, 3 the server refused a command,
 * 4 the last connection broke off, 1 anything else.
 */
#include <arpa/inet.h>
#include <errno.h>
#include <fcntl.h>
#include <netinet/in.h>
#include <stdio.h>
#include <stdlib.h>
#include <string.h>
#include <sys/file.h>
#include <sys/socket.h>
#include <unistd.h>

#include "dme.h"

#define WINDOW 1

struct run {
    dme_client client;
    dme_record record;
    dme_errors errors;
    size_t first; /* the feature with which the present connection began */
    int file;     /* the record's */
};

static void give_up(const char *what, unsigned number)
{
    fprintf(stderr, "measure: %s: %u\n", what, number);
    exit(1);
}

/* The bytes of an open file. The pointer is not null, even if the file is empty. */
static uint8_t *bytes_of(const char *name, int file, size_t *length)
{
    size_t room = 1 << 20;
    uint8_t *bytes = malloc(room);
    ssize_t count;
    *length = 0;
    if (file < 0) give_up(name, (unsigned)errno);
    while (bytes && (count = read(file, bytes + *length, room - *length)) > 0) {
        *length += (size_t)count;
        if (*length == room) bytes = realloc(bytes, room *= 2);
    }
    if (!bytes || count < 0) give_up(name, DME_MEMORY);
    return bytes;
}

static uint8_t *bytes_in(const char *name, size_t *length)
{
    int file = open(name, O_RDONLY);
    uint8_t *bytes = bytes_of(name, file, length);
    close(file);
    return bytes;
}

/* Why the program or the record is refused. */
static void refuse(const dme_begun *begun, const uint8_t *label, const uint8_t *setup, size_t setup_length, const uint8_t *program,
                   size_t program_length)
{
    dme_refusal why;
    switch (begun->number) {
    case DME_BAD_PROGRAM:
        why = dme_program_refusal(setup, setup_length, program, program_length);
        fprintf(stderr, "measure: P%u at line %llu of the program\n", why.cause, (unsigned long long)why.line);
        break;
    case DME_DAMAGED:
        fprintf(stderr, "measure: J1 at line %llu of the record\n", (unsigned long long)begun->line);
        break;
    case DME_OTHER_PART:
        fprintf(stderr, "measure: J2, the record is of another part\n");
        break;
    case DME_OTHER_PROGRAM:
        fprintf(stderr, "measure: J3, the record is of another program: feature %.*s\n", (int)begun->label_length, (const char *)label);
        break;
    default:
        give_up("begin", begun->number);
    }
    exit(1);
}

/* Reads the record, and cuts off what is torn. */
static void begin(struct run *run, char **words)
{
    uint8_t label[64], none = 0;
    size_t setup_length, program_length, length;
    uint8_t *setup = bytes_in(words[2], &setup_length), *program = bytes_in(words[3], &program_length), *record;
    dme_begun begun;
    run->file = open(words[4], O_RDWR | O_CREAT | O_APPEND, 0666);
    if (run->file < 0 || flock(run->file, LOCK_EX | LOCK_NB) != 0) give_up(words[4], (unsigned)errno);
    record = bytes_of(words[4], run->file, &length);
    begun = dme_record_begin(&run->record, &run->client, setup, setup_length, program, program_length, &none, 0, record, length, WINDOW, label,
                             sizeof label);
    if (begun.number != DME_DONE) refuse(&begun, label, setup, setup_length, program, program_length);
    if (begun.held < length && ftruncate(run->file, (off_t)begun.held) != 0) give_up(words[4], (unsigned)errno);
    free(setup);
    free(program);
    free(record);
}

/* Appends to the record what has become due, and forces it to the device. */
static void keep(struct run *run)
{
    uint8_t room[4096];
    size_t count, kept = 0;
    uint32_t answer = dme_record_follow(&run->record, &run->client);
    if (answer != DME_DONE) give_up("follow", answer);
    while ((count = dme_record_take(&run->record, room, sizeof room)) != 0)
        for (size_t done = 0; done < count; kept++) {
            ssize_t written = write(run->file, room + done, count - done);
            if (written < 0) give_up("the record", (unsigned)errno);
            done += (size_t)written;
        }
    if (kept && fsync(run->file) != 0) give_up("the record", (unsigned)errno);
}

static const char *const KINDS[] = {
    "server", "StartSession", "EndSession", "ClearAllErrors", "IsHomed", "Home", "OnPtMeasReport", "GoTo", "PtMeas", "ChangeTool",
    "SetCsyTransformation", "SetCoordSystem", "AbortE",
};

/* Prints the errors that the server has reported since: the command, the feature and the touch, and the text, with \xNN for each byte that
 * cannot be printed. */
static void print_errors(struct run *run)
{
    static uint8_t text[65536];
    dme_error error;
    while ((error = dme_errors_take(&run->errors, text, sizeof text)).number == DME_DONE) {
        if (error.length > sizeof text) give_up("the text of an error", (unsigned)error.length);
        fprintf(stderr, "measure: %s", KINDS[error.command]);
        if (error.touch != 0) {
            dme_place place = dme_client_touch(&run->client, run->first, error.touch);
            if (place.number != DME_DONE) give_up("touch", place.number);
            fprintf(stderr, ", feature %zu, touch %zu", place.feature, place.touch);
        }
        fprintf(stderr, ": ");
        for (size_t at = 0; at < error.length; at++)
            fprintf(stderr, text[at] >= 32 && text[at] <= 126 ? "%c" : "\\x%02X", text[at]);
        fprintf(stderr, "\n");
    }
}

static int connection_to(const char *port)
{
    struct sockaddr_in at = {0};
    int line = socket(AF_INET, SOCK_STREAM, 0);
    at.sin_family = AF_INET;
    at.sin_port = htons((uint16_t)atoi(port));
    at.sin_addr.s_addr = htonl(INADDR_LOOPBACK);
    if (line < 0 || connect(line, (struct sockaddr *)&at, sizeof at) != 0) give_up(strerror(errno), 0);
    return line;
}

/* Writes all that is due, and sends it; 0 if the connection broke off. */
static int give_out(struct run *run, int line)
{
    uint8_t room[4096];
    uint32_t answer;
    size_t count;
    do {
        answer = dme_client_send(&run->client);
    } while (answer == DME_DONE);
    if (answer != DME_NOT_NOW) give_up("send", answer);
    while ((count = dme_client_take(&run->client, room, sizeof room)) != 0)
        for (size_t done = 0; done < count;) {
            ssize_t sent = send(line, room + done, count - done, MSG_NOSIGNAL);
            if (sent <= 0) return 0;
            answer = dme_errors_sent(&run->errors, room + done, (size_t)sent);
            if (answer != DME_DONE) give_up("sent", answer);
            done += (size_t)sent;
        }
    return 1;
}

/* Feeds what has come in, and reads each whole line; 0 if the connection broke off. */
static int take_in(struct run *run, int line)
{
    uint8_t piece[4096];
    uint32_t answer;
    ssize_t count = recv(line, piece, sizeof piece, 0);
    if (count <= 0) return 0;
    answer = dme_errors_came(&run->errors, piece, (size_t)count);
    if (answer != DME_DONE) give_up("came", answer);
    print_errors(run);
    answer = dme_client_feed(&run->client, piece, (size_t)count);
    if (answer != DME_DONE) give_up("feed", answer);
    do {
        answer = dme_client_read(&run->client);
    } while (answer == DME_DONE);
    keep(run);
    if (answer != DME_NOTHING) give_up("read", answer);
    return 1;
}

/* Measures on a new connection; answers the state in which it ends, DME_APART if the connection broke off. */
static uint32_t measured_on(struct run *run, const char *port)
{
    int line = connection_to(port);
    uint32_t state, answer = dme_record_connected(&run->record, &run->client);
    if (answer != DME_DONE) give_up("connected", answer);
    dme_errors_connected(&run->errors);
    run->first = dme_client_next(&run->client).feature;
    for (;;) {
        int is_up = give_out(run, line);
        state = dme_client_state(&run->client);
        if (state == DME_FINISHED || state == DME_HALTED || state == DME_FAULTED) break;
        is_up = is_up && take_in(run, line);
        if (!is_up) {
            dme_next next = dme_client_next(&run->client);
            fprintf(stderr, "measure: the connection broke off, at feature %llu\n", (unsigned long long)next.feature);
            state = DME_APART;
            break;
        }
    }
    close(line);
    dme_client_leave(&run->client);
    return state;
}

static void print_features(dme_client *client)
{
    uint8_t none = 0, *room;
    dme_text text = dme_client_features(client, &none, 0);
    if (text.number != DME_DONE) give_up("features", text.number);
    room = malloc(text.length);
    if (!room) give_up("features", DME_MEMORY);
    text = dme_client_features(client, room, text.length);
    if (text.number != DME_DONE) give_up("features", text.number);
    fwrite(room, 1, text.length, stdout);
    free(room);
}

int main(int count, char **words)
{
    struct run run = {0};
    uint32_t state = DME_APART;
    int connections;

    if (count < 5 || count > 6) give_up("PORT SETUP PROGRAM RECORD [CONNECTIONS]", 0);
    connections = count == 6 ? atoi(words[5]) : 1;
    begin(&run, words);
    if (dme_errors_new(&run.errors) != DME_DONE) give_up("errors", DME_MEMORY);
    keep(&run);
    if (dme_client_next(&run.client).feature == 0) state = DME_FINISHED;
    while (state == DME_APART && connections-- > 0) state = measured_on(&run, words[1]);
    keep(&run);
    print_features(&run.client);
    dme_errors_free(&run.errors);
    dme_record_free(&run.record);
    dme_client_free(&run.client);
    return state == DME_FINISHED ? 0 : state == DME_APART ? 4 : 3;
}
