/* Gelvopaun for a program in C or C++: a user interface is started from the bytes of its definition, hears events, can be read at any time, and
 * gives out the lines that it says. docs/format.md has the definitions, the event lines and the lines, and docs/embedding.md a guide. There are
 * no peers: a definition that needs one is refused.
 *
 * What a program has to keep to:
 *
 * - A gelvopaun_ui begins as zero bytes, and from then on only these functions read or write it. It is not copied or moved while it has a
 *   session.
 * - Threads: a session stays on the thread that started it, and is used by one call at a time. Two sessions share nothing, so each may have a
 *   thread of its own.
 * - Ownership: a gelvopaun_ui owns its session, and gelvopaun_finish frees it. Everything else that a call is given stays the program's, and
 *   no call keeps an address that it was given. No call answers an address.
 * - No pointer is null, also where its length is 0, and each is good for its length, below 2^63, until the call returns. What a call writes
 *   to overlaps nothing else that the call is given.
 * - The program's malloc, realloc and free are of one allocator, and a block is aligned to 16 bytes, or to the greatest power of two that
 *   divides its size where that is less. The library calls no other function of the program.
 * - No function is called from a signal handler, or in the child of a fork of a process with threads.
 *
 * What is proved of the library holds for a program that keeps to this. Whatever else a program does is answered by a status, and changes
 * nothing: calls in a wrong order, lines that are no events, names of nothing, buffers without room. */
#ifndef GELVOPAUN_H
#define GELVOPAUN_H

#include <stdbool.h>
#include <stddef.h>
#include <stdint.h>

/* The version of this header, which is that of the library beside it. */
#define GELVOPAUN_VERSION_MAJOR 0
#define GELVOPAUN_VERSION_MINOR 39
#define GELVOPAUN_VERSION_MICRO 0
#define GELVOPAUN_VERSION "0.39.0"

/* Whether this header is of this version or a later one. */
#define GELVOPAUN_CHECK_VERSION(major, minor, micro)                                                  \
  (GELVOPAUN_VERSION_MAJOR > (major) ||                                                               \
   (GELVOPAUN_VERSION_MAJOR == (major) &&                                                             \
    (GELVOPAUN_VERSION_MINOR > (minor) ||                                                             \
     (GELVOPAUN_VERSION_MINOR == (minor) && GELVOPAUN_VERSION_MICRO >= (micro)))))

#ifdef __cplusplus
extern "C" {
#endif

/* A session, or none. */
typedef struct gelvopaun_ui {
  bool is_open;
  void *session;
} gelvopaun_ui;

/* How a call ended. The numbers up to 5 are those with which `ui run` ends, and 2. GELVOPAUN_STOPPED alone is final for a session: after any
 * other status it goes on. */
enum {
  GELVOPAUN_DONE = 0,
  /* The definition is refused, and there is no session. */
  GELVOPAUN_DEFINITION_REFUSED = 1,
  /* There is no session. */
  GELVOPAUN_NO_SESSION = 2,
  /* No memory was found, in this call or in one before. The session, if there is one, carries nothing out any more; its lines can still be
   * taken. */
  GELVOPAUN_STOPPED = 3,
  /* The line is refused, and the session is as it was. */
  GELVOPAUN_LINE_REFUSED = 5,
  /* The event has more to do: gelvopaun_advance goes on with it. */
  GELVOPAUN_UNDER_WAY = 6,
  /* Another event is under way. Nothing was done. */
  GELVOPAUN_BUSY = 7,
  /* No memory was found for reading the line. Nothing was done, and the session is as it was. */
  GELVOPAUN_NO_MEMORY = 8,
  /* No event is under way. Nothing was done. */
  GELVOPAUN_AT_REST = 9,
};

/* When a turn has something to run next. */
enum {
  /* At no moment, until an event comes. */
  GELVOPAUN_DUE_NEVER = 0,
  /* At once. */
  GELVOPAUN_DUE_NOW = 1,
  /* At a moment, in the milliseconds of the turns. */
  GELVOPAUN_DUE_AT = 2,
};

/* Writes the version of the library to `out`, as much of it as there is room for, and a zero byte behind it where there is room. The answer is the
 * whole length. A program that was built with another version of this header finds out by it: GELVOPAUN_VERSION is the header's. */
size_t gelvopaun_version(uint8_t *out, size_t room);

/* Judges a definition without running anything, and writes what `ui verify` prints to `report`, as much of it as there is room for: the
 * report with the bound on the steps of each dispatch, or the line of the refusal. Where there is room for it, a zero byte follows; the rest of
 * `report` stays as it was. The text itself has no zero byte, so where none is found it may have been cut, and a host comes again with more
 * room. */
uint8_t gelvopaun_verify(const uint8_t *definition, size_t length, uint8_t *report, size_t room);

/* Like gelvopaun_verify, and writes to `whole` how long the whole text is, also where there was room for a front of it alone. Where reading or the
 * verdict refuses a definition, gelvopaun_start writes the same reason, without `refused: ` before it. So this is also the way to the whole of a
 * reason that was cut. */
uint8_t gelvopaun_report(const uint8_t *definition, size_t length, uint8_t *report, size_t room, size_t *whole);

/* Starts a session from the bytes of a definition: reads it, verifies it and builds its objects. A session that there was is freed. Where the
 * definition is refused, the reason is written to `refusal`, as much of it as there is room for. Where there is room for it, a zero byte
 * follows; the rest of `refusal` stays as it was. Where it is not refused, the reason is empty. */
uint8_t gelvopaun_start(const uint8_t *definition, size_t length, gelvopaun_ui *ui, uint8_t *refusal, size_t room);

/* Like gelvopaun_start, for a definition of which no dispatch may count more steps than `most`: neither the build, nor what an event, a source or
 * a call begins. Where one may, the definition is refused as `StepLimit`, and nothing of it is built. gelvopaun_verify tells each bound. */
uint8_t gelvopaun_start_within(const uint8_t *definition, size_t length, gelvopaun_ui *ui, uint64_t most, uint8_t *refusal, size_t room);

/* Has the session carry out one event line, without its LF. Where the line is refused, the name of the reason is written to `refusal`, as
 * much of it as there is room for. Where there is room for it, a zero byte follows; the rest of `refusal` stays as it was. Where the line is
 * not refused, the name is empty. */
uint8_t gelvopaun_dispatch(gelvopaun_ui *ui, const uint8_t *line, size_t length, uint8_t *refusal, size_t room);

/* Has the session begin the event of one line. Where it answers GELVOPAUN_UNDER_WAY the event has more to do, and gelvopaun_advance goes on
 * with it. Otherwise it answers what gelvopaun_dispatch does, and writes to `refusal` as that does. */
uint8_t gelvopaun_begin(gelvopaun_ui *ui, const uint8_t *line, size_t length, uint8_t *refusal, size_t room);

/* Goes on with the event that is under way, for at most so many counted steps. It answers GELVOPAUN_UNDER_WAY where exactly so many were made
 * and the event has not ended, and GELVOPAUN_DONE where it has. All parts of an event come to what gelvopaun_dispatch comes to, and its lines
 * can be taken between them. Where no event is under way nothing is done, and it answers GELVOPAUN_AT_REST. */
uint8_t gelvopaun_advance(gelvopaun_ui *ui, uint64_t most);

/* Answers when a turn has something to run next, if no event comes before it. Where that is GELVOPAUN_DUE_AT the moment is written to
 * `moment`, and otherwise `moment` stays as it was. A turn before that moment runs nothing. A session that is not there is never due. */
uint8_t gelvopaun_next_due(gelvopaun_ui *ui, uint64_t *moment);

/* Takes bytes of the lines that the session has said, each line with its LF, from where the last call ended. It answers how many it has
 * written to `out`: `room`, or fewer where no more are left. */
size_t gelvopaun_take_lines(gelvopaun_ui *ui, uint8_t *out, size_t room);

/* Reading. The next five functions tell what there is of a session, at any time, also between the parts of an event. They change nothing, and a
 * session that has stopped can be read too. Objects are numbered in the order in which they are made, from 1 on, as in the lines (`#1`); a
 * number is never used again. Where a text is answered, as much of it as there is room for is written to `out`, and a zero byte follows where
 * there is room for it; the answer is the whole length of the text, so a host can come again with more room. The answer is 0 where there is
 * nothing to tell, and where no memory was found. */

/* Answers the lowest number, from `from` on, of an object that lives, or 0 where there is none. A host goes through all objects by beginning
 * with 1, and going on with one more than each answer. */
uint64_t gelvopaun_next_object(gelvopaun_ui *ui, uint64_t from);

/* Answers the number of the definition's object with this id, or 0 where there is no such object, or it was released. */
uint64_t gelvopaun_object(gelvopaun_ui *ui, const uint8_t *id, size_t length);

/* Tells an object that lives, as JSON:
 *   {"id":"row","prototype":true,"class":"Row","parent":3,"children":[8,9],"disposed":false}
 * `id` is that of the object or prototype of the definition from which it was made; `parent` is null where it has none. */
size_t gelvopaun_describe(gelvopaun_ui *ui, uint64_t object, uint8_t *out, size_t room);

/* Tells the value of a property of an object that lives, as JSON: true or false, a number, a text or null, an enum's nick as a text, the
 * number of flags, and an object as {"object":14} or null. */
size_t gelvopaun_get(gelvopaun_ui *ui, uint64_t object, const uint8_t *property, size_t length, uint8_t *out, size_t room);

/* Tells a class of the definition with all that it inherits, as JSON:
 *   {"name":"Switch","parent":"Widget","abstract":false,"final":true,"interfaces":["Named"],"properties":[..],"signals":[..]}
 * `parent` is null where it has none, and `interfaces` has those that an ancestor implements too. Properties are in the order of their slots, and
 * signals in the order of their numbers, inherited ones first; the first signal is `notify`. Each has the members that a definition gives it
 * (docs/format.md), and under `owner` the class or interface that declares it:
 *   {"name":"size","owner":"Widget","kind":"int","flags":["readable","writable"],"min":0,"max":9,"default":1}
 *   {"name":"toggled","owner":"Switch","params":["bool"],"result":"none","flags":["run-last"]}
 * A property of whole numbers has `min` and `max`, one of objects has `weak`, and a default is written as gelvopaun_get writes a value. A signal has
 * `accumulator` where it has one. */
size_t gelvopaun_class(gelvopaun_ui *ui, const uint8_t *name, size_t length, uint8_t *out, size_t room);

/* Ends the session and frees it, if there is one. The gelvopaun_ui can be started again. */
void gelvopaun_finish(gelvopaun_ui *ui);

#ifdef __cplusplus
}
#endif

#endif
