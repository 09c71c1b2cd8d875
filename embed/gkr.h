/* The commands of gkr on a case, for programs that embed them.
 *
 * Each function runs one command on the bytes of a case in memory, as the program `gkr` runs it on
 * its standard input, and returns the number that the program ends with (GKR_DONE .. below).
 * `docs/commands.md` has the replies.
 *
 *     input, input_size    the bytes of the case, which are only read
 *     reply, reply_size    room for the reply, of which nothing is read
 *     needed               where to put how many bytes the reply has
 *
 * Where the reply fits (*needed <= reply_size), the first *needed bytes of the room are the reply,
 * and the others are as they were. Where it doesn't, the room is as it was: call again with more.
 * The reply is the same each time, but where memory ran out.
 *
 * What the caller owes: no pointer is null, also where a size is 0 (point to any byte); `reply`
 * and `needed` overlap each other and `input` nowhere, and nobody else touches the three during the
 * call; sizes are below 2^63; no call is made from a signal handler, or in the child of a fork of a
 * process with threads. The bytes of the case may be any.
 *
 * The functions share nothing, keep nothing, start no thread and wait for none: any number of
 * threads may call them at once. They take memory by malloc, realloc and free, and give all of it
 * back before they return.
 *
 * A call takes at most 192 KiB of stack, the most where the program has as many levels of nesting
 * as there may be, 64.
 */
#ifndef GKR_H
#define GKR_H

#include <stddef.h>
#include <stdint.h>

#ifdef __cplusplus
extern "C" {
#endif

/* What a call returns. */
enum {
    /* done; of verify: accepted */
    GKR_DONE = 0,
    /* the proof fails an equation of acceptance */
    GKR_REJECTED = 1,
    /* no such kind or version, and nothing is handed out; of gkr_c_run: the words are no command */
    GKR_USAGE = 2,
    /* the input is no text of a case */
    GKR_BAD_CASE = 3,
    /* the case's program is refused, or its circuit is too large */
    GKR_BAD_PROGRAM = 4,
    /* another number of inputs or outputs than the program has */
    GKR_BAD_COUNT = 5,
    /* the proof's bytes spell no messages of the circuit's shape */
    GKR_BAD_PROOF = 6,
    /* no memory was found for the reply; what is handed out is a prefix of it, and may be empty */
    GKR_WRITE_FAULT = 8,
    /* no memory was found, or the circuit has more than 33,554,432 gates; nothing is handed out */
    GKR_MEMORY = 9,
    /* the input is longer than a case may be */
    GKR_TOO_LONG = 10,
    /* of gkr_c_run: the words are no text; nothing is handed out */
    GKR_UNREADABLE = 11,
    /* of gkr_c_run: the words name a command that isn't on a case; nothing is handed out */
    GKR_NOT_HERE = 12
};

/* Kinds of proof, for gkr_c_prove. */
enum { GKR_LINES_1 = 1, GKR_LINES_2 = 2, GKR_PAIRS = 3 };

/* The longest input, in bytes: room in which every reply of prove and convert fits, too. */
enum { GKR_CASE_LIMIT = 8388608 };

/* `gkr eval`: of a case without outputs, these: `output C y1 .. yC` and a line's end.
 * Numbers 0, 3, 4, 5, 8, 9, 10. */
uint8_t gkr_c_eval(const uint8_t *input, size_t input_size, uint8_t *reply, size_t reply_size,
                   size_t *needed);

/* `gkr circuit`: of a case without outputs, the sizes of its circuit, a line for each layer and
 * four more. Numbers 0, 3, 4, 5, 8, 9, 10. */
uint8_t gkr_c_circuit(const uint8_t *input, size_t input_size, uint8_t *reply, size_t reply_size,
                      size_t *needed);

/* `gkr verify`: of a case with outputs and a proof, the verdict, a line of at most 100 bytes.
 * Numbers 0, 1, 3, 4, 5, 6, 8, 9, 10. */
uint8_t gkr_c_verify(const uint8_t *input, size_t input_size, uint8_t *reply, size_t reply_size,
                     size_t *needed);

/* `gkr audit`: of a case with outputs and a proof by lines, four lines of at most 200 bytes.
 * Numbers 0, 3, 4, 5, 6, 8, 9, 10. */
uint8_t gkr_c_audit(const uint8_t *input, size_t input_size, uint8_t *reply, size_t reply_size,
                    size_t *needed);

/* `gkr prove --proof`: of a case without outputs, the case with them and a proof of a kind,
 * GKR_LINES_1, GKR_LINES_2 or GKR_PAIRS, by the calling thread. It has at most GKR_CASE_LIMIT
 * bytes: with so much room a proof is made once. Numbers 0, 2, 3, 4, 5, 8, 9, 10. */
uint8_t gkr_c_prove(uint32_t kind, const uint8_t *input, size_t input_size, uint8_t *reply,
                    size_t reply_size, size_t *needed);

/* `gkr convert --to`: of a case with outputs and a proof by lines, the case with that proof in
 * version 1 or 2, of at most GKR_CASE_LIMIT bytes. Numbers 0, 1, 2, 3, 4, 5, 6, 8, 9, 10. */
uint8_t gkr_c_convert(uint32_t version, const uint8_t *input, size_t input_size, uint8_t *reply,
                      size_t reply_size, size_t *needed);

/* `gkr` with these words, a byte 0 between two of them: gkr_c_run("prove\0--proof\0pair", 18, ..).
 * The number of workers changes no answer: the calling thread does all. Any of the numbers. */
uint8_t gkr_c_run(const uint8_t *words, size_t words_size, const uint8_t *input, size_t input_size,
                  uint8_t *reply, size_t reply_size, size_t *needed);

#ifdef __cplusplus
}
#endif

#endif
