/*
 * The cores of a client and of a server of a measuring machine (I++ DME Interface version 1), over bytes and numbers.
 *
 * What a caller must ensure; the library tests none of it:
 *
 * - A handle is a variable of the caller's, at one address from `.._new` to `.._free`; the caller neither reads nor writes its contents.
 *   `.._new` fills a handle that holds nothing: one that is all zero and was never filled, or that `.._free` has emptied. If `.._new`
 *   answers a number other than DME_DONE, the handle holds nothing. Every other call requires a handle that holds a core.
 *   `.._free` releases all memory of the core. A core that is never freed leaks memory, and has no other effect.
 * - A handle is used by one call at a time, from the thread that filled it.
 * - Bytes are a pointer and a length. The pointer is never null, even if the length is 0, and the length is below 2^63. Bytes that are
 *   passed in are only read, and only during the call: they stay the caller's. Room that is passed is written only during the call; it
 *   overlaps neither the handle nor other bytes of the same call.
 * - The library allocates with the program's `malloc`, `realloc` and `free`, which must belong to one allocator. A call that runs out of
 *   memory answers DME_MEMORY and leaves the core as it was, and can be made again; `dme_errors_sent` and `dme_errors_came` are exceptions.
 *   Calls other than `.._new` answer DME_MEMORY only if they are possible, and a reading call only for a whole line. No call is made from a
 *   signal handler.
 *
 * Lengths and positions are whole micrometres in this interface, and millimetres in the texts of programs, setups and features.
 */
#ifndef DME_H
#define DME_H

#include <stddef.h>
#include <stdint.h>

#ifdef __cplusplus
extern "C" {
#endif

/* Answers. */
#define DME_DONE 0u          /* done; for a reading call: a line was read */
#define DME_NOTHING 1u       /* only for a reading call: there is no whole line; for `dme_errors_take`: there is no error */
#define DME_NOT_NOW 2u       /* the call is not possible now; nothing changed */
#define DME_MEMORY 3u        /* out of memory; nothing changed */
#define DME_BAD_SETUP 4u     /* `.._new`: the text of the setup is refused */
#define DME_BAD_PROGRAM 5u   /* `dme_client_new`: the text of the program is refused */
#define DME_BAD_FEATURES 6u  /* `dme_client_new`: the text of the kept features is refused */
#define DME_BAD_WINDOW 7u    /* `dme_client_new`: the window is not from 1 to 16 */
#define DME_NOT_OURS 8u      /* `dme_client_new`: the kept features are not the first ones of the program */
#define DME_DAMAGED 9u       /* J1, `dme_record_begin`: a line of the record cannot be where it is */
#define DME_OTHER_PART 10u   /* J2, `dme_record_begin`: the record names another part, or only one of record and call names any */
#define DME_OTHER_PROGRAM 11u /* J3, `dme_record_begin`: the wanted features of the record are not those of the program */
#define DME_BAD_PART 12u     /* `dme_record_begin`: the name of the part has more than 64 bytes, or one that is not from 32 to 126 */
/* Why the client has closed its connection. Leave it, and come to a new connection. */
#define DME_NOT_RESPONSE 16u /* a line was not a response, or its data were not what was requested */
#define DME_LINE_TOO_LONG 17u
#define DME_BAD_BYTE 18u
#define DME_UNKNOWN_TAG 19u
#define DME_OUT_OF_ORDER 20u
#define DME_NO_DATA 21u
#define DME_SECOND_DATA 22u
#define DME_TAGS_SPENT 23u
/* What a server refuses; nothing changed. It also answers DME_LINE_TOO_LONG and DME_BAD_BYTE, until the connection is left. */
#define DME_NOTHING_RUNS 24u
#define DME_WRONG_OUTCOME 25u /* what runs cannot end this way: a touch ends by `touched` or `missed`, anything else by `done` */
#define DME_OUT_OF_VOLUME 26u /* a touched point is more than 1000000000 micrometres from an axis' zero */

/* States of a client. */
#define DME_APART 0u    /* on no connection; also a new client, even if it keeps all features */
#define DME_RUNNING 1u
#define DME_FAILING 2u  /* a command has failed, others are open */
#define DME_ABORTING 3u
#define DME_HALTED 4u   /* nothing is open after a failure or an abort: `dme_client_resume` */
#define DME_FINISHED 5u /* all is measured */
#define DME_FAULTED 6u

/* Kinds of commands. */
#define DME_START_SESSION 1u
#define DME_END_SESSION 2u
#define DME_CLEAR_ALL_ERRORS 3u
#define DME_IS_HOMED 4u
#define DME_HOME_COMMAND 5u
#define DME_ON_PT_MEAS_REPORT 6u
#define DME_GO_TO 7u
#define DME_PT_MEAS 8u
#define DME_CHANGE_TOOL 9u
#define DME_SET_CSY_TRANSFORMATION 10u
#define DME_SET_COORD_SYSTEM 11u
#define DME_ABORT_E 12u

/* What runs on the machine of a server. */
#define DME_NO_JOB 0u
#define DME_HOME 1u
#define DME_MOVE 2u
#define DME_TOUCH 3u
#define DME_CHANGE 4u /* of the tool: `dme_server_tool` */

typedef struct { uint8_t *at; } dme_client;
typedef struct { uint8_t *at; } dme_server;
typedef struct { uint8_t *at; } dme_record;
typedef struct { uint8_t *at; } dme_errors;

/* A job, its place in whole micrometres in machine axes, and the outward normal of a touch, in whole millionths; zeros if it has none. */
typedef struct { uint32_t number; int64_t x, y, z; int64_t i, j, k; } dme_job;

/* The number of the answer, and how many bytes the text has. */
typedef struct { uint32_t number; size_t length; } dme_text;

/*
 * Why a program is refused: `cause` 5 stands for P5, and so on from 1 to 16; of P7 `numeral` 1 stands for N1, up to 3. `line`, from 1, is
 * that on which the statement begins. All three are 0 unless `number` is DME_BAD_PROGRAM.
 */
typedef struct { uint32_t number, cause, numeral; uint64_t line; } dme_refusal;

/*
 * The command that is due (0: none), and its place in whole micrometres and its outward normal in whole millionths, in the coordinate system
 * that is selected on the server; zeros if it has none. `feature` is the number, from 1, of the program's first feature that is not complete,
 * 0 if all are.
 */
typedef struct { uint32_t command; uint64_t feature; int64_t x, y, z; int64_t i, j, k; } dme_next;

/* Which touch of which feature of the program, both from 1; zeros if there is no such touch. */
typedef struct { uint32_t number; size_t feature, touch; } dme_place;

/*
 * An error that a server reported: the kind of the command that it is about, 0 if none is known; of a touch, how many touches were sent on
 * the connection up to this one, otherwise 0; and how many bytes its text has. All zeros if `number` is DME_NOTHING.
 */
typedef struct { uint32_t number, command; uint64_t touch; size_t length; } dme_error;

/*
 * What a record gives: the damaged line, from 1, of DME_DAMAGED; if it is begun, the number that its next connection has, and how many of the
 * bytes are whole lines of it; and of DME_OTHER_PROGRAM how many bytes the label of the first feature has that differs. Otherwise zeros.
 */
typedef struct { uint32_t number; uint64_t line, connection; size_t held, label_length; } dme_begun;

/*
 * A client for the program of this text, with the frames of this setup. `features` is the text of the features that it already has, empty
 * if there is no such feature; a feature counts if its END has its line feed. The window, from 1 to 16, is how many commands it keeps open
 * at most. A new client is in DME_APART, was on no connection and has nothing to send; it keeps exactly the features of that text.
 *
 * It answers the first of these that applies, or DME_MEMORY instead, and no other number: DME_BAD_SETUP, DME_BAD_PROGRAM (with the frames
 * of the setup), DME_BAD_FEATURES (a line is damaged), DME_BAD_WINDOW, DME_NOT_OURS (the kept features do not have the labels and counts
 * of points of the program's first features). If none of them applies, DME_DONE or DME_MEMORY.
 */
uint32_t dme_client_new(dme_client *client, const uint8_t *setup, size_t setup_length, const uint8_t *program, size_t program_length,
                        const uint8_t *features, size_t features_length, uint8_t window);
/* Empties the handle. */
void dme_client_free(dme_client *client);
/* There is a new connection. Its number, from 1 to 4000000000, is above that of each earlier one. DME_NOT_NOW except in DME_APART. */
uint32_t dme_client_connected(dme_client *client, uint64_t number);
/* Writes the command that is due; DME_NOT_NOW if no command is due. `dme_client_take` gives what it writes. */
uint32_t dme_client_send(dme_client *client);
/* Takes bytes that came from the server, however they were cut. */
uint32_t dme_client_feed(dme_client *client, const uint8_t *piece, size_t piece_length);
/* Reads the first whole line of what was fed: DME_DONE, or DME_NOTHING if there is no whole line. */
uint32_t dme_client_read(dme_client *client);
/* Copies as much of what is to be sent as fits into the room. What is copied counts as sent. Answers how many bytes that is. */
size_t dme_client_take(dme_client *client, uint8_t *room, size_t room_length);
/* Writes an abort; DME_NOT_NOW except in DME_RUNNING and DME_FAILING. */
uint32_t dme_client_abort(dme_client *client);
/* Resumes the plan after the last completed feature, on the same connection; DME_NOT_NOW except in DME_HALTED, and there too if the
 * StartSession() of this connection was not completed: then leave it. */
uint32_t dme_client_resume(dme_client *client);
/* Leaves the connection. What is measured stays. */
void dme_client_leave(dme_client *client);
/* The number of the state. */
uint32_t dme_client_state(dme_client *client);
/*
 * The text of the completed features (`DME-FEATURES 2`). If its length is at most that of the room, it is written to the start of the
 * room; otherwise the room stays as it is. If `number` is DME_MEMORY, the rest of the answer has no meaning.
 */
dme_text dme_client_features(dme_client *client, uint8_t *room, size_t room_length);

/* What the client sends and measures next. */
dme_next dme_client_next(dme_client *client);
/*
 * The touch of this number, from 1, among those of the features of the program from `first`, from 1, on: the touches of a connection, if
 * `first` is the feature that `dme_client_next` gives when the connection begins. DME_DONE or DME_MEMORY.
 */
dme_place dme_client_touch(dme_client *client, size_t first, size_t touch);
/*
 * Why the text of the program is refused, with the frames of the setup: DME_DONE if it is not, DME_BAD_SETUP, DME_BAD_PROGRAM with cause and
 * line, or DME_MEMORY instead of any.
 */
dme_refusal dme_program_refusal(const uint8_t *setup, size_t setup_length, const uint8_t *program, size_t program_length);

/*
 * The record of a run (`DME-RECORD 2`): what was asked, what the server reported, and which features are complete. The file is the caller's.
 *
 * Makes a client that continues the record of these bytes, and the record; both handles hold nothing before. `bytes` is all that the file has,
 * none if there is no file yet. `part` names the part, of length 0 if there is none. The client has the features that the record completes,
 * whose points are those of contacts that the record says a server reported. Cut the file to `held` bytes and append what `dme_record_take`
 * gives from then on, first of all. Of a file that has no whole head, `held` is 0, and what is taken begins with the head.
 *
 * It answers the first of these that applies, or DME_MEMORY instead, and no other number: DME_BAD_SETUP, DME_BAD_PROGRAM
 * (`dme_program_refusal` says why), DME_BAD_PART, DME_BAD_WINDOW; then, each of which leaves the file to the caller as it is: DME_DAMAGED,
 * DME_OTHER_PART, DME_OTHER_PROGRAM. The label of the feature that differs, of at most 64 bytes, is copied to the room if it fits. If the
 * answer is not DME_DONE, neither handle holds anything.
 */
dme_begun dme_record_begin(dme_record *record, dme_client *client, const uint8_t *setup, size_t setup_length, const uint8_t *program,
                           size_t program_length, const uint8_t *part, size_t part_length, const uint8_t *bytes, size_t bytes_length,
                           uint8_t window, uint8_t *room, size_t room_length);
/* Empties the handle. The client stays as it is. */
void dme_record_free(dme_record *record);
/*
 * The calls below that are passed a client must be passed the one that was begun with the record. Of it `dme_client_connected` and
 * `dme_client_resume` are not called: these two are called instead. They do the same, on the connection with the record's next number, after
 * adding the lines that are due; DME_MEMORY may come before any other refusal.
 */
uint32_t dme_record_connected(dme_record *record, dme_client *client);
uint32_t dme_record_resume(dme_record *record, dme_client *client);
/*
 * Adds the lines of what the client has counted since: each act that the server reported, and each feature that it completes. DME_DONE, also
 * if nothing is new, or DME_MEMORY. To be called after `dme_client_read`, in any state of the client.
 */
uint32_t dme_record_follow(dme_record *record, dme_client *client);
/* Copies as much of what is to be appended to the file as fits into the room, and forgets it. Answers how many bytes that is. */
size_t dme_record_take(dme_record *record, uint8_t *room, size_t room_length);

/*
 * The errors that a server reports, each with the command that it is about: the last one that was sent under its tag. The handle is passed all
 * bytes of a connection, those of both sides in the order in which they go by, however they were cut; it needs no client.
 *
 * Nothing went by yet, and no connection is followed. DME_DONE or DME_MEMORY.
 */
uint32_t dme_errors_new(dme_errors *errors);
/* Empties the handle, also of the errors that were not taken. */
void dme_errors_free(dme_errors *errors);
/* There is a new connection, which is followed from now on. The errors of the last one that were not taken stay. */
void dme_errors_connected(dme_errors *errors);
/*
 * These bytes were sent to the server, or came from it. DME_NOT_NOW if no connection is followed. After DME_MEMORY the errors that were not
 * taken stay, but the connection is followed no more: the calls answer DME_NOT_NOW until the next one.
 */
uint32_t dme_errors_sent(dme_errors *errors, const uint8_t *piece, size_t piece_length);
uint32_t dme_errors_came(dme_errors *errors, const uint8_t *piece, size_t piece_length);
/*
 * The first error that was not taken: DME_DONE, or DME_NOTHING if there is none. Each error is given once, in the order in which they came. If
 * the length of its text, as it was received, is at most that of the room, the text is written to the start of the room, and the error is
 * taken; otherwise nothing changes. A line of this profile has at most 65536 bytes. The text comes from the other side: it may hold any byte
 * but a line feed.
 */
dme_error dme_errors_take(dme_errors *errors, uint8_t *room, size_t room_length);

/*
 * A server with this setup, not homed, without a tool and never on a connection. Its machine is the caller's: see `dme_server_job`.
 * DME_BAD_SETUP if the setup is refused, otherwise DME_DONE; DME_MEMORY instead of either, and no other number.
 */
uint32_t dme_server_new(dme_server *server, const uint8_t *setup, size_t setup_length);
/* Empties the handle. */
void dme_server_free(dme_server *server);
/*
 * There is a new connection. Its number, from 1 to 4000000000, is above that of each earlier one. DME_NOT_NOW while the server is on a
 * connection, and for any other number; there is no other refusal.
 */
uint32_t dme_server_accept(dme_server *server, uint64_t number);
/*
 * Takes bytes that came from the client, however they were cut. DME_NOT_NOW on no connection; DME_LINE_TOO_LONG or DME_BAD_BYTE once
 * `dme_server_read` has answered it.
 */
uint32_t dme_server_feed(dme_server *server, const uint8_t *piece, size_t piece_length);
/*
 * Reads the first whole line of what was fed and answers it: DME_DONE, or DME_NOTHING if there is no whole line. DME_NOT_NOW on no
 * connection; DME_LINE_TOO_LONG or DME_BAD_BYTE if what was fed does not begin with a line.
 */
uint32_t dme_server_read(dme_server *server);
/* Processes the first waiting command; DME_NOT_NOW while a job runs and if nothing waits. */
uint32_t dme_server_turn(dme_server *server);
/* What the machine must do now. */
dme_job dme_server_job(dme_server *server);
/* Copies the name of the tool to change to, of at most 64 bytes, if it fits the room. Answers its length, 0 if no tool change runs. */
size_t dme_server_tool(dme_server *server, uint8_t *room, size_t room_length);
/* How what runs has ended: done, a touch with or without a surface, the machine stopped. Each of x, y and z within 4000000000. */
uint32_t dme_server_done(dme_server *server);
uint32_t dme_server_touched(dme_server *server, int64_t x, int64_t y, int64_t z);
uint32_t dme_server_missed(dme_server *server);
uint32_t dme_server_stopped(dme_server *server);
/* Copies as much of what is to be sent as fits into the room. What is copied counts as sent. Answers how many bytes that is. */
size_t dme_server_take(dme_server *server, uint8_t *room, size_t room_length);
/* Leaves the connection: what runs stops uncompleted. Homing, tool and ledger stay. */
void dme_server_leave(dme_server *server);

#ifdef __cplusplus
}
#endif

#endif
