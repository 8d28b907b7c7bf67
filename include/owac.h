/*
 * The receiver and the burst writer for hosts in C11 and C++.
 *
 * Link with libowac_c.a (`rt lib` in crates/owac_c writes it to crates/owac_c/out).
 *
 * Memory. The host owns all of it and lends it for the time of a call; the library keeps nothing, allocates nothing and has no
 * state of its own. Each buffer is a pointer and then its length, and nothing outside it is read or written. The pointer of a
 * buffer of length 0 may be null. A pointer to a struct points at one. A buffer or struct that a call may change overlaps no
 * other one of the same call. Calls on memory of their own may run at the same time.
 *
 * Bad values. No length, place, count or octet is forbidden: each call says how it reads every value, and a buffer that is too
 * short gets its refusal.
 *
 * docs/protocol.md has the formats and rules.
 */
#ifndef OWAC_H
#define OWAC_H

#include <stddef.h>
#include <stdint.h>

#ifdef __cplusplus
extern "C" {
#endif

/* Sizes. */
#define OWAC_WORK_OCTETS 16500          /* a work buffer has as many, or more */
#define OWAC_CELL_OCTETS 81             /* a cell of an image */
#define OWAC_LONGEST_MESSAGE 12288      /* the octets of a message */
#define OWAC_LONGEST_BURST_OCTETS 14782 /* room for the burst of any message */
#define OWAC_VERDICT_ROW_OCTETS 82      /* kind 1, kid 16, alg 1, SHA-256 of transcript 32, SHA-256 of signature 32 */
#define OWAC_TAG_ROW_OCTETS 64          /* kid 16, SHA-256 of transcript 32, tag 16 */
#define OWAC_ID_OCTETS 16               /* a sid or a kid */
#define OWAC_HASH_OCTETS 32             /* a transcript hash */
#define OWAC_LONGEST_TEXT 256           /* the octets of a text */

/* The kind of an answer. */
enum {
    OWAC_QUIET = 0,     /* no frame begins here */
    OWAC_DUPLICATE = 1, /* the very message that set its pair's mark: it was let in before */
    OWAC_REFUSED = 2,   /* `refusal` says why */
    OWAC_RELEASED = 3   /* a command to carry out, once */
};

/* The refusals. Each is the number of the question that was answered no. */
enum {
    OWAC_WORK_TOO_SHORT = 1,      /* the work buffer has fewer than OWAC_WORK_OCTETS octets */
    OWAC_OUT_OF_BOUNDS = 2,       /* not start <= count <= 8 times the burst's octets */
    OWAC_STORE_OFF = 3,           /* there is no power */
    OWAC_BURST_TOO_LONG = 4,      /* no closing flag in time */
    OWAC_L2_FRAMING = 5,          /* no closing flag, or wrong stuffing */
    OWAC_OCTET_ALIGN = 6,         /* no whole octets */
    OWAC_FCS_FAIL = 7,            /* damaged */
    OWAC_CBOR_PARSE = 8,          /* not one item */
    OWAC_INDEFINITE = 9,          /* a head of indefinite length */
    OWAC_NOT_DET = 10,            /* not the deterministic encoding */
    OWAC_CBOR_PARSE_SCHEMA = 11,  /* not the tables of a message; its name is CBOR_PARSE too */
    OWAC_PROFILE_MISMATCH = 12,   /* another profile than 1 */
    OWAC_SIZE_LIMIT = 13,         /* a part is too long */
    OWAC_CTX_MISMATCH = 14,       /* the echo is not the context */
    OWAC_KID_UNKNOWN = 15,        /* the sheet does not know the kid for the alg */
    OWAC_SIG_LEN = 16,            /* the signature has not its alg's length */
    OWAC_AUTH_FAIL = 17,          /* the sheet does not call the signature good */
    OWAC_REPLAY = 18,             /* the position is not above the pair's mark */
    OWAC_EXPIRED = 19,            /* too late */
    OWAC_EXP_TOO_FAR = 20,        /* its time lies too far ahead */
    OWAC_UNKNOWN_CMD = 21,        /* no listed type */
    OWAC_BAD_ARGS = 22,           /* not the arguments of its type */
    OWAC_ALLOWLIST_DENY = 23,     /* reserved, or a track off the catalog, or a suspect line */
    OWAC_DUO_POLICY_UNKNOWN = 24, /* asks for a second signature */
    OWAC_NO_ROOM = 25,            /* no free cell */
    OWAC_NOT_RAISED = 26,         /* the power was cut while the mark was written */
    OWAC_MESSAGE_TOO_LONG = 27,   /* writer: more than OWAC_LONGEST_MESSAGE octets */
    OWAC_OUTPUT_TOO_SHORT = 28    /* writer: no room for the burst */
};

/* The answers of owac_hear_frame that are no refusal. */
enum {
    OWAC_FRAME = 0,
    OWAC_FRAME_QUIET = 100
};

/* The types of commands. */
enum {
    OWAC_HEARTBEAT = 0, /* time, if given */
    OWAC_QUEUE = 1,     /* track, priority; earliest and until, if given */
    OWAC_SUGGEST = 2,   /* track, weight */
    OWAC_REMOVE = 3,    /* item */
    OWAC_STATE = 10,    /* state */
    OWAC_SEEK = 11,     /* milliseconds */
    OWAC_RATE = 12,     /* percent */
    OWAC_NEXT = 13,
    OWAC_PREVIOUS = 14,
    OWAC_TEXT = 20 /* target, mode, text */
};

/* What a cut leaves in the cell that was being written. Any other octet is read as torn. */
enum {
    OWAC_LEAVES_OLD = 0,
    OWAC_LEAVES_NEW = 1,
    OWAC_LEAVES_TORN = 2
};

/* A number that may be absent: it is where `given` is 0, and there at any other octet. What is answered has `given` 0 with
 * `value` 0, or `given` 1. */
typedef struct OwacOptional {
    uint64_t value;
    uint8_t given;
} OwacOptional;

/*
 * What lasts from call to call beside an image; the host keeps both, and sets this one before the first call.
 *
 *   charge  how many whole writes the power still lasts; a host that knows no such number sets UINT64_MAX
 *   last    the cell written last since switching on; absent at first
 *   floor   an epoch below which nothing is let in; absent if there is none
 *   on      power: 0 is off, and any other octet is on
 *   leaves  what a cut leaves (above)
 *
 * A call that takes it for writing leaves it in its plain form: what was read, with flags 0 or 1, absent values 0, leaves 0 to 2.
 */
typedef struct OwacSupply {
    uint64_t charge;
    OwacOptional last;
    OwacOptional floor;
    uint8_t on;
    uint8_t leaves;
} OwacSupply;

/*
 * How a burst is listened to. Tone k is bit k mod 8, lowest first, of octet k div 8; 1 is mark.
 *
 *   count    how many tones count
 *   start    the first tone to listen to: 0, or the last answer's `next`
 *   clock    Unix time in seconds
 *   suspect  whether the demodulator doubts the burst: 0 is no, and any other octet is yes
 */
typedef struct OwacListening {
    size_t count;
    size_t start;
    uint64_t clock;
    uint8_t suspect;
} OwacListening;

/* A sender and its key. */
typedef struct OwacPair {
    uint8_t sid[OWAC_ID_OCTETS];
    uint8_t kid[OWAC_ID_OCTETS];
} OwacPair;

/* A position, compared by epoch first, and the transcript hash of the message that reached it. */
typedef struct OwacMark {
    uint64_t epoch;
    uint64_t counter;
    uint8_t hash[OWAC_HASH_OCTETS];
} OwacMark;

/* A part of the work buffer. */
typedef struct OwacSpan {
    size_t start;
    size_t length;
} OwacSpan;

/* A released command: its type's number, with the arguments of its type; all others are 0 and not given. */
typedef struct OwacCommand {
    uint8_t kind;
    int8_t priority;      /* -10 to 10 */
    int8_t weight;        /* -5 to 5 */
    uint8_t state;        /* 0 to 2 */
    uint8_t percent;      /* 50 to 200 */
    uint8_t target;       /* 0 to 2 */
    uint8_t mode;         /* 0 to 2 */
    int32_t milliseconds; /* -60,000 to 60,000 */
    uint64_t track;
    uint64_t item;
    OwacOptional time;
    OwacOptional earliest;
    OwacOptional until;
    OwacSpan text;
} OwacCommand;

/* The answer of a listening. Only OWAC_REFUSED has `refusal`, and only OWAC_RELEASED has what stands behind `next`; else
 * they are 0. */
typedef struct OwacAnswer {
    uint8_t kind;
    uint8_t refusal;
    size_t next;   /* where to listen next */
    size_t length; /* the octets of the message, which stands at the work buffer's front */
    OwacPair pair;
    OwacMark mark;
    OwacCommand command;
} OwacAnswer;

/* The answer of owac_write_burst: 0 and the number of tones, or a refusal's number and 0. */
typedef struct OwacWrittenBurst {
    uint8_t answer;
    size_t count;
} OwacWrittenBurst;

/* The answer of owac_hear_frame: OWAC_FRAME with the frame's octets counted, its FCS among them; or OWAC_FRAME_QUIET or a
 * refusal's number, with length 0. */
typedef struct OwacHeardFrame {
    uint8_t answer;
    size_t next;
    size_t length;
} OwacHeardFrame;

/*
 * Listens for the first frame at or after `start` and judges it: the first question answered no gives the refusal.
 *
 *   image    cells of OWAC_CELL_OCTETS octets; all zeros is an empty one. It has to outlast a power failure. A release and
 *            OWAC_NOT_RAISED change one cell at most, any other answer no octet; octets behind the last whole cell never change
 *   supply   read as said above; changes with the image alone, but for its plain form
 *   sheet    the rows that other software worked out; octets behind the last whole row mean nothing
 *   catalog  the track numbers that may be queued, and how many
 *   work     after a release the message and then zeros, after any other answer zeros alone
 *   answer   as said above; what stood there before is not read
 *
 * A position of a pair is released once at most, whatever is repeated and wherever the power is cut. After
 * OWAC_NOT_RAISED power is off and the message was not released: where the mark that was being written stands all the same
 * (owac_mark tells), it never will be, and the sender has to send the job under a new counter.
 */
void owac_listen_by_verdicts(uint8_t *image, size_t image_length, OwacSupply *supply, const uint8_t *sheet,
                             size_t sheet_length, const uint8_t *burst, size_t burst_length, const OwacListening *listening,
                             const uint64_t *catalog, size_t catalog_count, uint8_t *work, size_t work_length,
                             OwacAnswer *answer);

/* The same with a tag sheet. */
void owac_listen_by_tags(uint8_t *image, size_t image_length, OwacSupply *supply, const uint8_t *sheet, size_t sheet_length,
                         const uint8_t *burst, size_t burst_length, const OwacListening *listening, const uint64_t *catalog,
                         size_t catalog_count, uint8_t *work, size_t work_length, OwacAnswer *answer);

/* Switches power on for so many whole writes: `on` is 1, `charge` is `writes`, `last` is absent; all else stays. */
void owac_switch_on(OwacSupply *supply, uint64_t writes);

/* Reads a pair's mark under the floor, with power on or off: 1 and the mark, or 0 and all zeros where there is none. The image
 * is not changed. */
uint8_t owac_mark(uint8_t *image, size_t image_length, const OwacSupply *supply, const OwacPair *pair, OwacMark *mark);

/*
 * Tells how many octets the text of a released command has, and copies it to the front of `out` if that has room for it; else
 * `out` stays as it is. `work` is the work buffer as the release left it. 0 where the command is no OWAC_TEXT or its place lies
 * outside of `work`. The text is UTF-8 without a zero at its end.
 */
size_t owac_text(const uint8_t *work, size_t work_length, const OwacCommand *command, uint8_t *out, size_t out_length);

/* Writes the burst of a message to the front of `burst`. A refusal (27, 28) leaves `burst` as it is; octets behind the burst
 * stay. */
OwacWrittenBurst owac_write_burst(const uint8_t *message, size_t message_length, uint8_t *burst, size_t burst_length);

/* Hears the first frame at or after `start` and judges nothing but the line (refusals 1, 2, 4 to 7). After a frame `work`
 * holds its octets and then zeros, after any other answer zeros alone. */
OwacHeardFrame owac_hear_frame(const uint8_t *burst, size_t burst_length, size_t count, size_t start, uint8_t *work,
                               size_t work_length);

/* The FCS of a message. */
uint16_t owac_fcs(const uint8_t *message, size_t message_length);

#ifdef __cplusplus
}
#endif

#endif
