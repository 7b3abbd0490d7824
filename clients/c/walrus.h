/* walrus.h: the program walrus as a call.
 *
 * A call does what a run of the program does: the words of the command line, the input that the program would read from
 * standard input, room for what it would write to standard output, and its exit status as the result. What each command
 * takes and writes stands in walrus(1) and docs/FORMATS.md.
 *
 * A call keeps no state, starts no thread and takes no lock. Calls may run side by side, each with an output and
 * numbers of its own; they may share words and input. Memory comes from the process's malloc, realloc and free, and all
 * of it is given back before the call returns. Where there is none, the status is WALRUS_NO_MEMORY: a call never ends
 * the process. It is not to be called from a signal handler, or from the forked child of a process with threads.
 */
#ifndef WALRUS_H
#define WALRUS_H

#include <stddef.h>
#include <stdint.h>

#ifdef __cplusplus
extern "C" {
#endif

/* The statuses. Except for WALRUS_NO_ROOM, which comes of the caller's room alone, they are those of the program. */
enum {
    WALRUS_OK = 0,
    WALRUS_USAGE = 2,      /* the words ask for nothing; the output is the usage */
    WALRUS_REJECTED = 3,   /* what was recorded is false: the output has the evidence, or a line that says so */
    WALRUS_SHORT = 4,      /* the input is too little or too much for an answer; the output says in what */
    WALRUS_NO_MEMORY = 5,  /* malloc or realloc failed; the output is a front of the answer, mostly nothing */
    WALRUS_NO_ROOM = 7,    /* the text is longer than the output; *needed says how long it is */
    WALRUS_MALFORMED = 8,  /* the input is no stream, no schedule or no image; the output says where, if it can */
    WALRUS_TOO_LONG = 9,   /* the input is longer than the command takes */
    WALRUS_COLLISION = 10, /* two texts with one digest were found, which the output has */
    WALRUS_NO_WORDS = 11   /* the words are not UTF-8, or no zero byte stands behind the last one */
};

/* Does what the words ask for.
 *
 * words       the words of the command line without the program's own name, each with a zero byte behind it:
 *             "id\0" "1\0", of 5 bytes.
 * input       the bytes that the program would read from standard input.
 * output      room for the text that it would write to standard output.
 * *written    is set to how many bytes of the text stand at the front of output: the smaller of *needed and output_len.
 *             Behind them output stays as it was.
 * *needed     is set to how many bytes the whole text has. With WALRUS_NO_ROOM another call with so much room gives all,
 *             unless memory runs out then, or two other texts of a collision are longer; at status 5 the text is what
 *             was written until memory ran out.
 *
 * Each pointer points to as many bytes as the length behind it says, and is not null even where that is 0. Output and
 * the two numbers overlap neither each other nor what is read. */
uint8_t walrus_run(const uint8_t *words, size_t words_len,
                   const uint8_t *input, size_t input_len,
                   uint8_t *output, size_t output_len,
                   uint64_t *written, uint64_t *needed);

/* Says how much room is enough for the words and any input of input_len bytes: a call of walrus_run with such an output
 * never has the status WALRUS_NO_ROOM. A number is given for id, encode, read, check and verify, and for words that ask
 * for nothing. WALRUS_ROOM_UNKNOWN says that none is: for any other command, and for words that are none. Choose a room
 * then, and call again with *needed where it was too small. WALRUS_ROOM_NO_MEMORY says that there was no memory to read
 * the words. The numbers stand in docs/LIBRARY.md. */
uint64_t walrus_room(const uint8_t *words, size_t words_len, uint64_t input_len);

#define WALRUS_ROOM_UNKNOWN UINT64_MAX
#define WALRUS_ROOM_NO_MEMORY (UINT64_MAX - 1)

/* Reports which refusal a call of walrus_run wrote: the number below for its status and its text, which is the first
 * *written bytes of its output. It is WALRUS_CODE_NONE with status 0, and if the text begins like no refusal of the
 * status, as no text of a call does.
 *
 * output points to output_len bytes, and is not null even where that is 0. */
uint32_t walrus_code(uint8_t status, const uint8_t *output, size_t output_len);

/* The refusals. Each number is a hundred times the status, and a place. It keeps its meaning in later versions, which
 * may have further numbers. A text in quotes is the line that is written, with decimal numbers for its letters. */
enum {
    WALRUS_CODE_NONE = 0,
    WALRUS_CODE_USAGE = 201,            /* the words match no command; the text is the usage */
    WALRUS_CODE_REJECT = 301,           /* 'reject': the blob was badly encoded */
    WALRUS_CODE_INCONSISTENT = 302,     /* 'inconsistent': the proof shows that the blob was badly encoded */
    WALRUS_CODE_BAD_INDEX = 303,        /* 'bad index': the blob is no bundle */
    WALRUS_CODE_WRONG_OPENING = 304,    /* 'wrong D': the opening for draw D is not the drawn one, or is not held */
    WALRUS_CODE_PROOF = 305,            /* recover: the text is an envelope with a proof of bad encoding */
    WALRUS_CODE_NO_METADATA = 401,      /* 'no metadata': the input has no metadata of the identifier */
    WALRUS_CODE_TOO_FEW = 402,          /* 'short K of N': N slivers or openings are needed, and K are held */
    WALRUS_CODE_NO_PROOF = 403,         /* 'no proof': the input has no proof of the identifier */
    WALRUS_CODE_PROOF_COUNT = 404,      /* 'wrong count': the proof has too few openings, or too many */
    WALRUS_CODE_PROOF_REPEATS = 405,    /* 'repeated': two openings of the proof have one cross */
    WALRUS_CODE_BAD_OPENING = 406,      /* 'bad opening P': opening P of the proof is not held */
    WALRUS_CODE_CONSISTENT = 407,       /* 'consistent': the proof shows no bad encoding */
    WALRUS_CODE_DISK_FULL = 408,        /* 'disk full needed N free M': a record needs N bytes, and M are free */
    WALRUS_CODE_TOO_MANY_MEMBERS = 409, /* 'too many members': there are more files than a bundle may have */
    WALRUS_CODE_BUNDLE_TOO_LONG = 410,  /* 'bundle too long': no blob has room for the files */
    WALRUS_CODE_MISSING_COLUMN = 411,   /* 'missing column J': sliver J is missing, and so are enough openings of it */
    WALRUS_CODE_NO_MEMBER = 412,        /* 'no member of N': the bundle has only N files */
    WALRUS_CODE_NO_SHARD = 413,         /* 'no shard': the blob has no shard of this number */
    WALRUS_CODE_NO_PRIMARY = 414,       /* 'no primary': no primary sliver of the shard is held */
    WALRUS_CODE_NO_SECONDARY = 415,     /* 'no secondary': no secondary sliver of the shard is held */
    WALRUS_CODE_DRAW_COUNT = 416,       /* 'wrong count K of N': there are K openings, and N draws */
    WALRUS_CODE_NO_MEMORY = 501,        /* memory ran out, whatever the text is */
    WALRUS_CODE_INPUT_FAILED = 601,     /* status 6, which the program has and no call */
    WALRUS_CODE_NO_ROOM = 701,          /* the text is longer than the output */
    WALRUS_CODE_MALFORMED = 801,        /* 'malformed at N': at byte N no whole envelope begins, or no record */
    WALRUS_CODE_NOT_JSON = 802,         /* 'not json': the schedule is not JSON */
    WALRUS_CODE_BAD_SCHEDULE = 803,     /* 'bad schedule': the input is JSON, but no schedule */
    WALRUS_CODE_TOO_MANY_EVENTS = 804,  /* 'too many events': the schedule has more than 65536 */
    WALRUS_CODE_BAD_EVENT = 805,        /* 'bad event N': event N is none, or a number of it is out of range */
    WALRUS_CODE_BROKEN_REQUEST = 806,   /* serve: behind the requests that the text answers, no whole envelope begins */
    WALRUS_CODE_TOO_LONG = 901,         /* 'too long', or from serve its answers: the input is beyond the limit */
    WALRUS_CODE_COLLISION = 1001,       /* a hash collision: the last line, or from serve the last envelope */
    WALRUS_CODE_NO_WORDS = 1101         /* the words are not UTF-8, or no zero byte stands behind the last one */
};

#ifdef __cplusplus
}
#endif
#endif
