/*
 * A playout house in C: it takes a day's bursts, loses its power in each of the three ways, hears every burst three times, and
 * queues each track once. It checks this itself: any mismatch ends it with status 1.
 *
 * The workstation and the software that works out the sheets are played here too. Their tags and signatures are made up: the
 * sheets say which ones are good.
 */
#include "owac.h"

#include <stdbool.h>
#include <stdio.h>
#include <string.h>

/* The layouts are those of the library. */
_Static_assert(sizeof(size_t) == 8, "64 bits");
_Static_assert(sizeof(OwacOptional) == 16 && offsetof(OwacOptional, given) == 8, "OwacOptional");
_Static_assert(sizeof(OwacSupply) == 48 && offsetof(OwacSupply, last) == 8 && offsetof(OwacSupply, floor) == 24, "OwacSupply");
_Static_assert(offsetof(OwacSupply, on) == 40 && offsetof(OwacSupply, leaves) == 41, "OwacSupply");
_Static_assert(sizeof(OwacListening) == 32 && offsetof(OwacListening, start) == 8, "OwacListening");
_Static_assert(offsetof(OwacListening, clock) == 16 && offsetof(OwacListening, suspect) == 24, "OwacListening");
_Static_assert(sizeof(OwacPair) == 32 && offsetof(OwacPair, kid) == 16, "OwacPair");
_Static_assert(sizeof(OwacMark) == 48 && offsetof(OwacMark, counter) == 8 && offsetof(OwacMark, hash) == 16, "OwacMark");
_Static_assert(sizeof(OwacSpan) == 16 && offsetof(OwacSpan, length) == 8, "OwacSpan");
_Static_assert(sizeof(OwacCommand) == 96 && offsetof(OwacCommand, mode) == 6, "OwacCommand");
_Static_assert(offsetof(OwacCommand, milliseconds) == 8 && offsetof(OwacCommand, track) == 16, "OwacCommand");
_Static_assert(offsetof(OwacCommand, item) == 24 && offsetof(OwacCommand, time) == 32, "OwacCommand");
_Static_assert(offsetof(OwacCommand, earliest) == 48 && offsetof(OwacCommand, until) == 64, "OwacCommand");
_Static_assert(offsetof(OwacCommand, text) == 80, "OwacCommand");
_Static_assert(sizeof(OwacAnswer) == 200 && offsetof(OwacAnswer, refusal) == 1 && offsetof(OwacAnswer, next) == 8, "OwacAnswer");
_Static_assert(offsetof(OwacAnswer, length) == 16 && offsetof(OwacAnswer, pair) == 24, "OwacAnswer");
_Static_assert(offsetof(OwacAnswer, mark) == 56 && offsetof(OwacAnswer, command) == 104, "OwacAnswer");
_Static_assert(sizeof(OwacWrittenBurst) == 16 && offsetof(OwacWrittenBurst, count) == 8, "OwacWrittenBurst");
_Static_assert(sizeof(OwacHeardFrame) == 24 && offsetof(OwacHeardFrame, length) == 16, "OwacHeardFrame");

enum {
    CELLS = 8,
    SPARE = 5, /* octets behind the last whole cell */
    TRACKS = 12,
    REPEATS = 3,
    CLOCK = 1000000,
    EPOCH = 7,
    ALG_SIGNATURE = 1,
    ALG_TAG = 3,
    SIGNATURE_OCTETS = 3309,
    TAG_OCTETS = 16,
    ROWS = 64,
    MESSAGE_OCTETS = 4096
};

static int failures;

static void expect(bool holds, const char *what)
{
    if (!holds) {
        printf("mismatch: %s\n", what);
        failures++;
    }
}

/* SHA-256, for the sheets. */

static uint32_t turned(uint32_t x, unsigned n)
{
    return x >> n | x << (32 - n);
}

static void take_block(uint32_t state[8], const uint8_t block[64])
{
    static const uint32_t constants[64] = {
        0x428a2f98, 0x71374491, 0xb5c0fbcf, 0xe9b5dba5, 0x3956c25b, 0x59f111f1, 0x923f82a4, 0xab1c5ed5,
        0xd807aa98, 0x12835b01, 0x243185be, 0x550c7dc3, 0x72be5d74, 0x80deb1fe, 0x9bdc06a7, 0xc19bf174,
        0xe49b69c1, 0xefbe4786, 0x0fc19dc6, 0x240ca1cc, 0x2de92c6f, 0x4a7484aa, 0x5cb0a9dc, 0x76f988da,
        0x983e5152, 0xa831c66d, 0xb00327c8, 0xbf597fc7, 0xc6e00bf3, 0xd5a79147, 0x06ca6351, 0x14292967,
        0x27b70a85, 0x2e1b2138, 0x4d2c6dfc, 0x53380d13, 0x650a7354, 0x766a0abb, 0x81c2c92e, 0x92722c85,
        0xa2bfe8a1, 0xa81a664b, 0xc24b8b70, 0xc76c51a3, 0xd192e819, 0xd6990624, 0xf40e3585, 0x106aa070,
        0x19a4c116, 0x1e376c08, 0x2748774c, 0x34b0bcb5, 0x391c0cb3, 0x4ed8aa4a, 0x5b9cca4f, 0x682e6ff3,
        0x748f82ee, 0x78a5636f, 0x84c87814, 0x8cc70208, 0x90befffa, 0xa4506ceb, 0xbef9a3f7, 0xc67178f2,
    };
    uint32_t w[64];
    for (size_t i = 0; i < 16; i++) {
        w[i] = (uint32_t)block[4 * i] << 24 | (uint32_t)block[4 * i + 1] << 16 | (uint32_t)block[4 * i + 2] << 8
               | block[4 * i + 3];
    }
    for (size_t i = 16; i < 64; i++) {
        uint32_t a = turned(w[i - 15], 7) ^ turned(w[i - 15], 18) ^ w[i - 15] >> 3;
        uint32_t b = turned(w[i - 2], 17) ^ turned(w[i - 2], 19) ^ w[i - 2] >> 10;
        w[i] = w[i - 16] + a + w[i - 7] + b;
    }
    uint32_t v[8];
    memcpy(v, state, sizeof v);
    for (size_t i = 0; i < 64; i++) {
        uint32_t e = turned(v[4], 6) ^ turned(v[4], 11) ^ turned(v[4], 25);
        uint32_t a = turned(v[0], 2) ^ turned(v[0], 13) ^ turned(v[0], 22);
        uint32_t one = v[7] + e + ((v[4] & v[5]) ^ (~v[4] & v[6])) + constants[i] + w[i];
        uint32_t two = a + ((v[0] & v[1]) ^ (v[0] & v[2]) ^ (v[1] & v[2]));
        memmove(v + 1, v, 7 * sizeof v[0]);
        v[4] += one;
        v[0] = one + two;
    }
    for (size_t i = 0; i < 8; i++) {
        state[i] += v[i];
    }
}

static void sha256(const uint8_t *octets, size_t length, uint8_t digest[OWAC_HASH_OCTETS])
{
    uint32_t state[8] = {0x6a09e667, 0xbb67ae85, 0x3c6ef372, 0xa54ff53a, 0x510e527f, 0x9b05688c, 0x1f83d9ab, 0x5be0cd19};
    size_t at = 0;
    for (; length - at >= 64; at += 64) {
        take_block(state, octets + at);
    }
    uint8_t rest[128] = {0};
    size_t left = length - at;
    memcpy(rest, octets + at, left);
    rest[left] = 0x80;
    size_t end = left < 56 ? 64 : 128;
    for (size_t i = 0; i < 8; i++) {
        rest[end - 1 - i] = (uint8_t)((uint64_t)length * 8 >> 8 * i);
    }
    for (at = 0; at < end; at += 64) {
        take_block(state, rest + at);
    }
    for (size_t i = 0; i < OWAC_HASH_OCTETS; i++) {
        digest[i] = (uint8_t)(state[i / 4] >> (24 - 8 * (i % 4)));
    }
}

/* The workstation. */

typedef struct Message {
    uint8_t octets[MESSAGE_OCTETS];
    size_t length;
} Message;

typedef struct Job {
    uint64_t counter;
    uint8_t kind; /* OWAC_QUEUE, OWAC_HEARTBEAT or OWAC_TEXT */
    uint64_t track;
    const char *text;
} Job;

static const OwacPair TAG_PAIR = {.sid = "playlist desk 1", .kid = "tag key, desk 1"};
static const OwacPair SIGNATURE_PAIR = {.sid = "playlist desk 2", .kid = "sig key, desk 2"};

static void put(Message *m, const void *octets, size_t length)
{
    memcpy(m->octets + m->length, octets, length);
    m->length += length;
}

/* A head in its shortest form. */
static void put_head(Message *m, uint8_t major, uint64_t argument)
{
    unsigned more = argument < 24 ? 0 : argument < 256 ? 1 : argument < 65536 ? 2 : argument <= UINT32_MAX ? 4 : 8;
    uint8_t first = (uint8_t)(more == 0 ? argument : more == 1 ? 24 : more == 2 ? 25 : more == 4 ? 26 : 27);
    m->octets[m->length++] = (uint8_t)(major << 5 | first);
    while (more-- > 0) {
        m->octets[m->length++] = (uint8_t)(argument >> 8 * more);
    }
}

static void put_number(Message *m, uint64_t key, uint64_t number)
{
    put_head(m, 0, key);
    put_head(m, 0, number);
}

static void put_octets(Message *m, uint64_t key, uint8_t major, const void *octets, size_t length)
{
    put_head(m, 0, key);
    put_head(m, major, length);
    put(m, octets, length);
}

static void put_command(Message *m, const Job *job)
{
    put_head(m, 5, 2);
    put_number(m, 0, job->kind);
    put_head(m, 0, 1);
    switch (job->kind) {
    case OWAC_QUEUE:
        put_head(m, 5, 2);
        put_number(m, 0, job->track);
        put_head(m, 0, 1);
        put_head(m, 1, 4); /* priority -5 */
        break;
    case OWAC_TEXT:
        put_head(m, 5, 3);
        put_number(m, 0, 2);
        put_number(m, 1, 1);
        put_octets(m, 2, 3, job->text, strlen(job->text));
        break;
    default:
        put_head(m, 5, 1);
        put_number(m, 0, CLOCK);
    }
}

/* The message of a job, or what is signed of it: the same without the signature's entry. */
static void put_message(Message *m, const Job *job, const OwacPair *pair, uint64_t alg, const uint8_t *signature, size_t length)
{
    m->length = 0;
    put_head(m, 5, 5);
    put_number(m, 0, 1);
    put_number(m, 1, 1);
    put_head(m, 0, 2);
    put_head(m, 5, 3);
    put_number(m, 0, EPOCH);
    put_number(m, 1, job->counter);
    put_octets(m, 2, 2, pair->sid, sizeof pair->sid);
    put_head(m, 0, 3);
    put_command(m, job);
    put_head(m, 0, 4);
    put_head(m, 5, signature ? 3 : 2);
    put_number(m, 0, alg);
    put_octets(m, 1, 2, pair->kid, sizeof pair->kid);
    if (signature) {
        put_octets(m, 2, 2, signature, length);
    }
}

typedef struct Sheet {
    uint8_t rows[ROWS * OWAC_VERDICT_ROW_OCTETS];
    size_t length;
} Sheet;

static void add(Sheet *sheet, const void *octets, size_t length)
{
    memcpy(sheet->rows + sheet->length, octets, length);
    sheet->length += length;
}

/* Makes up a tag, and has the sheet call it good. */
static void write_tagged(Message *m, const Job *job, Sheet *tags, uint8_t hash[OWAC_HASH_OCTETS])
{
    put_message(m, job, &TAG_PAIR, ALG_TAG, NULL, 0);
    sha256(m->octets, m->length, hash);
    uint8_t tag[OWAC_HASH_OCTETS];
    sha256(hash, OWAC_HASH_OCTETS, tag);
    add(tags, TAG_PAIR.kid, OWAC_ID_OCTETS);
    add(tags, hash, OWAC_HASH_OCTETS);
    add(tags, tag, TAG_OCTETS);
    put_message(m, job, &TAG_PAIR, ALG_TAG, tag, TAG_OCTETS);
}

/* Makes up a signature, and has the sheet pin its key and call it good. */
static void write_signed(Message *m, const Job *job, Sheet *verdicts, uint8_t hash[OWAC_HASH_OCTETS])
{
    static uint8_t signature[SIGNATURE_OCTETS];
    memset(signature, 0x5A, sizeof signature);
    put_message(m, job, &SIGNATURE_PAIR, ALG_SIGNATURE, NULL, 0);
    sha256(m->octets, m->length, hash);
    uint8_t of_signature[OWAC_HASH_OCTETS];
    sha256(signature, sizeof signature, of_signature);
    static const uint8_t pin[1] = {0}, yes[1] = {1}, alg[1] = {ALG_SIGNATURE}, ignored[64];
    add(verdicts, pin, 1);
    add(verdicts, SIGNATURE_PAIR.kid, OWAC_ID_OCTETS);
    add(verdicts, alg, 1);
    add(verdicts, ignored, 64);
    add(verdicts, yes, 1);
    add(verdicts, SIGNATURE_PAIR.kid, OWAC_ID_OCTETS);
    add(verdicts, alg, 1);
    add(verdicts, hash, OWAC_HASH_OCTETS);
    add(verdicts, of_signature, OWAC_HASH_OCTETS);
    put_message(m, job, &SIGNATURE_PAIR, ALG_SIGNATURE, signature, sizeof signature);
}

typedef struct Recording {
    uint8_t octets[REPEATS * OWAC_LONGEST_BURST_OCTETS];
    size_t length;
} Recording;

/* The burst of a message, so many times in a row. */
static void record(Recording *r, const Message *m, size_t repeats)
{
    r->length = 0;
    for (size_t i = 0; i < repeats; i++) {
        OwacWrittenBurst w = owac_write_burst(m->octets, m->length, r->octets + r->length, sizeof r->octets - r->length);
        expect(w.answer == 0, "a burst is written");
        r->length += (w.count + 7) / 8;
    }
}

/* The house. What outlasts a power failure: the image, the supply, the play queue, and the mark of the last job in it. */

typedef struct House {
    uint8_t image[CELLS * OWAC_CELL_OCTETS + SPARE];
    OwacSupply supply;
    uint64_t queue[4 * TRACKS];
    size_t queued;
    OwacMark done;
} House;

static const uint64_t CATALOG[TRACKS] = {101, 102, 103, 104, 105, 106, 107, 108, 109, 110, 111, 1099511627776};

static uint8_t work[OWAC_WORK_OCTETS];
static OwacAnswer answer;

static bool same_mark(const OwacMark *a, const OwacMark *b)
{
    return a->epoch == b->epoch && a->counter == b->counter && memcmp(a->hash, b->hash, sizeof a->hash) == 0;
}

static void listen(House *house, const Sheet *tags, const uint8_t *burst, size_t length, size_t start)
{
    OwacListening listening = {.count = 8 * length, .start = start, .clock = CLOCK, .suspect = 0};
    owac_listen_by_tags(house->image, sizeof house->image, &house->supply, tags->rows, tags->length, burst, length, &listening,
                        CATALOG, TRACKS, work, sizeof work, &answer);
}

static void carry_out(House *house)
{
    if (answer.command.kind == OWAC_QUEUE && house->queued < sizeof house->queue / sizeof house->queue[0]) {
        house->queue[house->queued++] = answer.command.track;
        expect(answer.command.priority == -5, "the priority");
        expect(!answer.command.earliest.given && !answer.command.until.given, "no times");
    }
    house->done = answer.mark;
}

typedef struct Tally {
    size_t released, duplicates, replays, cuts[3];
    bool lost;
} Tally;

/*
 * The power came back for two whole writes. What was in passing memory is gone. A mark above the last job that was done is that
 * of a job that was never released: it is lost, and the workstation has to send it anew.
 */
static void restart(House *house, Tally *tally)
{
    memset(work, 0xAA, sizeof work);
    memset(&answer, 0xAA, sizeof answer);
    OwacMark mark;
    uint8_t found = owac_mark(house->image, sizeof house->image, &house->supply, &TAG_PAIR, &mark);
    tally->lost = found && !same_mark(&mark, &house->done);
    size_t cuts = tally->cuts[0] + tally->cuts[1] + tally->cuts[2];
    house->supply.leaves = (uint8_t)(cuts % 3);
    owac_switch_on(&house->supply, 2);
    expect(house->supply.on == 1 && house->supply.charge == 2 && !house->supply.last.given, "switched on");
}

static void hear_recording(House *house, const Sheet *tags, const Recording *r, Tally *tally)
{
    size_t start = 0;
    for (;;) {
        listen(house, tags, r->octets, r->length, start);
        size_t next = answer.next;
        if (answer.kind == OWAC_QUIET) {
            expect(next == 8 * r->length, "quiet to the end");
            return;
        }
        if (answer.kind == OWAC_RELEASED) {
            tally->released++;
            carry_out(house);
        } else if (answer.kind == OWAC_DUPLICATE) {
            tally->duplicates++;
        } else if (answer.refusal == OWAC_REPLAY) {
            tally->replays++;
        } else if (answer.refusal == OWAC_NOT_RAISED) {
            tally->cuts[house->supply.leaves]++;
            expect(!house->supply.on, "a cut leaves no power");
            listen(house, tags, r->octets, r->length, next);
            expect(answer.kind == OWAC_REFUSED && answer.refusal == OWAC_STORE_OFF && answer.next == next, "no power");
            restart(house, tally);
        } else {
            /* what lies between two bursts */
            expect(answer.refusal >= OWAC_L2_FRAMING && answer.refusal <= OWAC_FCS_FAIL, "noise between bursts");
        }
        if (next <= start) {
            expect(false, "listening goes on");
            return;
        }
        start = next;
    }
}

static void day(House *house, Sheet *tags)
{
    static Message sent[2 * TRACKS];
    static Recording recording;
    Tally tally = {0};
    size_t messages = 0;
    restart(house, &tally);
    for (size_t i = 0; i < TRACKS; i++) {
        do {
            Job job = {.counter = messages + 1, .kind = OWAC_QUEUE, .track = CATALOG[i]};
            uint8_t hash[OWAC_HASH_OCTETS];
            write_tagged(&sent[messages], &job, tags, hash);
            record(&recording, &sent[messages], REPEATS);
            messages++;
            tally.lost = false;
            hear_recording(house, tags, &recording, &tally);
            OwacMark mark;
            expect(owac_mark(house->image, sizeof house->image, &house->supply, &TAG_PAIR, &mark) == 1, "a mark");
            expect(mark.epoch == EPOCH && mark.counter == job.counter, "the mark's position");
            expect(memcmp(mark.hash, hash, sizeof hash) == 0, "the mark's hash");
        } while (tally.lost && messages < 2 * TRACKS);
    }
    printf("%zu messages: %zu released, %zu duplicates; cuts: %zu old, %zu new, %zu torn\n", messages, tally.released,
           tally.duplicates, tally.cuts[OWAC_LEAVES_OLD], tally.cuts[OWAC_LEAVES_NEW], tally.cuts[OWAC_LEAVES_TORN]);
    expect(tally.released == TRACKS, "as many releases as tracks");
    expect(tally.cuts[OWAC_LEAVES_OLD] > 0 && tally.cuts[OWAC_LEAVES_NEW] > 0 && tally.cuts[OWAC_LEAVES_TORN] > 0, "every cut");
    expect(messages == TRACKS + tally.cuts[OWAC_LEAVES_NEW], "only a cut that stood loses a job");
    expect(tally.duplicates + tally.released + tally.cuts[0] + tally.cuts[1] + tally.cuts[2] == REPEATS * messages,
           "every burst was heard");

    /* In the evening somebody plays the whole day again. */
    Tally evening = {0};
    for (size_t i = 0; i < messages; i++) {
        record(&recording, &sent[i], REPEATS);
        hear_recording(house, tags, &recording, &evening);
    }
    expect(evening.released == 0 && evening.duplicates == REPEATS, "nothing is let in again");
    expect(evening.replays == REPEATS * (messages - 1), "replays are refused");

    expect(house->queued == TRACKS, "as many queued as tracks");
    for (size_t i = 0; i < TRACKS; i++) {
        expect(house->queue[i] == CATALOG[i], "each track in its turn");
    }
}

/* A text, a heartbeat, a track off the catalog and a damaged burst. */
static void other_jobs(House *house, Sheet *tags)
{
    static Message m;
    static Recording recording;
    static const char words[] = "back at nine \xE2\x99\xAB";
    uint8_t hash[OWAC_HASH_OCTETS];
    uint8_t out[OWAC_LONGEST_TEXT];

    Job text = {.counter = 100, .kind = OWAC_TEXT, .text = words};
    write_tagged(&m, &text, tags, hash);
    record(&recording, &m, 1);
    owac_switch_on(&house->supply, UINT64_MAX);
    listen(house, tags, recording.octets, recording.length, 0);
    expect(answer.kind == OWAC_RELEASED && answer.refusal == 0, "a text is released");
    expect(answer.command.kind == OWAC_TEXT && answer.command.target == 2 && answer.command.mode == 1, "its arguments");
    expect(memcmp(answer.pair.sid, TAG_PAIR.sid, OWAC_ID_OCTETS) == 0, "the sid");
    expect(memcmp(answer.pair.kid, TAG_PAIR.kid, OWAC_ID_OCTETS) == 0, "the kid");
    expect(answer.mark.epoch == EPOCH && answer.mark.counter == 100, "the position");
    expect(memcmp(answer.mark.hash, hash, sizeof hash) == 0, "the hash");
    expect(answer.length == m.length && memcmp(work, m.octets, m.length) == 0, "the message");
    for (size_t i = m.length; i < sizeof work; i++) {
        expect(work[i] == 0, "zeros behind the message");
    }
    memset(out, 0x11, sizeof out);
    expect(owac_text(work, sizeof work, &answer.command, out, strlen(words) - 1) == strlen(words), "the text's length");
    expect(out[0] == 0x11, "no room, no text");
    expect(owac_text(work, sizeof work, &answer.command, out, sizeof out) == strlen(words), "the text's length");
    expect(memcmp(out, words, strlen(words)) == 0 && out[strlen(words)] == 0x11, "the text");
    expect(owac_text(NULL, 0, &answer.command, NULL, 0) == 0, "a text outside of the buffer");

    Job heartbeat = {.counter = 101, .kind = OWAC_HEARTBEAT};
    write_tagged(&m, &heartbeat, tags, hash);
    record(&recording, &m, 1);
    OwacListening doubted = {.count = 8 * recording.length, .clock = CLOCK, .suspect = 200};
    house->supply.on = 7;
    house->supply.leaves = 9;
    owac_listen_by_tags(house->image, sizeof house->image, &house->supply, tags->rows, tags->length, recording.octets,
                        recording.length, &doubted, CATALOG, TRACKS, work, sizeof work, &answer);
    expect(answer.kind == OWAC_RELEASED && answer.command.kind == OWAC_HEARTBEAT, "a heartbeat on a suspect line");
    expect(answer.command.time.given == 1 && answer.command.time.value == CLOCK, "its time");
    expect(house->supply.on == 1 && house->supply.leaves == OWAC_LEAVES_TORN, "the supply's plain form");
    expect(owac_text(work, sizeof work, &answer.command, out, sizeof out) == 0, "a heartbeat has no text");

    Job stranger = {.counter = 102, .kind = OWAC_QUEUE, .track = 999};
    write_tagged(&m, &stranger, tags, hash);
    record(&recording, &m, 1);
    listen(house, tags, recording.octets, recording.length, 0);
    expect(answer.kind == OWAC_REFUSED && answer.refusal == OWAC_ALLOWLIST_DENY, "a track off the catalog");

    Sheet none = {.length = 0};
    listen(house, &none, recording.octets, recording.length, 0);
    expect(answer.kind == OWAC_REFUSED && answer.refusal == OWAC_KID_UNKNOWN, "a kid that no row has");
    OwacListening all = {.count = 8 * recording.length, .clock = CLOCK};
    owac_listen_by_tags(house->image, sizeof house->image, &house->supply, NULL, 0, recording.octets, recording.length, &all,
                        CATALOG, TRACKS, work, sizeof work, &answer);
    expect(answer.kind == OWAC_REFUSED && answer.refusal == OWAC_KID_UNKNOWN, "no sheet at all");

    recording.octets[60] ^= 1;
    listen(house, tags, recording.octets, recording.length, 0);
    expect(answer.kind == OWAC_REFUSED && answer.refusal == OWAC_FCS_FAIL, "a damaged burst");
    expect(answer.length == 0 && answer.mark.epoch == 0 && answer.command.kind == 0, "a refusal hands nothing out");
    for (size_t i = 0; i < sizeof work; i++) {
        expect(work[i] == 0, "zeros after a refusal");
    }
}

/* A signature by a verdict sheet, under a floor, and lengths that a host got wrong. */
static void other_calls(House *house)
{
    static Message m;
    static Recording recording;
    static Sheet verdicts;
    uint8_t hash[OWAC_HASH_OCTETS];
    Job job = {.counter = 1, .kind = OWAC_QUEUE, .track = CATALOG[TRACKS - 1]};
    write_signed(&m, &job, &verdicts, hash);
    record(&recording, &m, 1);
    OwacListening listening = {.count = 8 * recording.length, .clock = CLOCK};
    House other = *house;
    OwacMark mark;

    expect(owac_mark(other.image, sizeof other.image, &other.supply, &SIGNATURE_PAIR, &mark) == 0, "no mark yet");
    expect(mark.epoch == 0 && mark.counter == 0 && mark.hash[0] == 0, "no mark is all zeros");
    other.supply.floor = (OwacOptional){.value = EPOCH + 1, .given = 1};
    expect(owac_mark(other.image, sizeof other.image, &other.supply, &SIGNATURE_PAIR, &mark) == 1, "the floor's mark");
    expect(mark.epoch == EPOCH + 1 && mark.counter == 0, "the floor's position");
    owac_listen_by_verdicts(other.image, sizeof other.image, &other.supply, verdicts.rows, verdicts.length, recording.octets,
                            recording.length, &listening, CATALOG, TRACKS, work, sizeof work, &answer);
    expect(answer.kind == OWAC_REFUSED && answer.refusal == OWAC_REPLAY, "below the floor");
    expect(memcmp(other.image, house->image, sizeof other.image) == 0, "a refusal leaves the image");
    other.supply.floor.given = 0;

    owac_listen_by_verdicts(other.image, sizeof other.image, &other.supply, verdicts.rows, verdicts.length, recording.octets,
                            recording.length, &listening, CATALOG, TRACKS, work, sizeof work - 1, &answer);
    expect(answer.refusal == OWAC_WORK_TOO_SHORT && answer.next == 0, "a short work buffer");
    listening.count++;
    owac_listen_by_verdicts(other.image, sizeof other.image, &other.supply, verdicts.rows, verdicts.length, recording.octets,
                            recording.length, &listening, CATALOG, TRACKS, work, sizeof work, &answer);
    expect(answer.refusal == OWAC_OUT_OF_BOUNDS, "a count past the burst");
    listening.count--;
    owac_listen_by_verdicts(other.image, sizeof other.image, &other.supply, NULL, 0, recording.octets, recording.length,
                            &listening, CATALOG, TRACKS, work, sizeof work, &answer);
    expect(answer.refusal == OWAC_KID_UNKNOWN, "an empty sheet");
    owac_listen_by_verdicts(other.image, sizeof other.image, &other.supply, verdicts.rows, verdicts.length, recording.octets,
                            recording.length, &listening, NULL, 0, work, sizeof work, &answer);
    expect(answer.refusal == OWAC_ALLOWLIST_DENY, "an empty catalog");
    owac_listen_by_verdicts(NULL, 0, &other.supply, verdicts.rows, verdicts.length, recording.octets, recording.length,
                            &listening, CATALOG, TRACKS, work, sizeof work, &answer);
    expect(answer.refusal == OWAC_NO_ROOM, "an empty image");
    OwacListening nothing = {0};
    owac_listen_by_verdicts(other.image, sizeof other.image, &other.supply, verdicts.rows, verdicts.length, NULL, 0, &nothing,
                            CATALOG, TRACKS, work, sizeof work, &answer);
    expect(answer.kind == OWAC_QUIET && answer.refusal == 0 && answer.next == 0, "an empty burst");
    owac_listen_by_verdicts(other.image, sizeof other.image, &other.supply, verdicts.rows, verdicts.length, recording.octets,
                            recording.length, &listening, CATALOG, TRACKS, NULL, 0, &answer);
    expect(answer.refusal == OWAC_WORK_TOO_SHORT, "an empty work buffer");
    expect(memcmp(other.image, house->image, sizeof other.image) == 0, "refusals leave the image");

    owac_listen_by_verdicts(other.image, sizeof other.image, &other.supply, verdicts.rows, verdicts.length, recording.octets,
                            recording.length, &listening, CATALOG, TRACKS, work, sizeof work, &answer);
    expect(answer.kind == OWAC_RELEASED && answer.command.track == CATALOG[TRACKS - 1], "a signed job");
    expect(memcmp(answer.mark.hash, hash, sizeof hash) == 0 && answer.length == m.length, "its hash and length");
    expect(owac_mark(other.image, sizeof other.image, &other.supply, &SIGNATURE_PAIR, &mark) == 1, "its mark");
    expect(same_mark(&mark, &answer.mark), "its mark");
    size_t changed = 0;
    for (size_t i = 0; i < CELLS; i++) {
        size_t at = i * OWAC_CELL_OCTETS;
        changed += memcmp(other.image + at, house->image + at, OWAC_CELL_OCTETS) != 0;
    }
    expect(changed == 1, "a release writes one cell");
    expect(memcmp(other.image + CELLS * OWAC_CELL_OCTETS, "spare", SPARE) == 0, "octets behind the last cell stay");

    static uint8_t longest[OWAC_LONGEST_MESSAGE + 1], burst[OWAC_LONGEST_BURST_OCTETS];
    memset(longest, 0xFF, sizeof longest);
    OwacWrittenBurst written = owac_write_burst(longest, sizeof longest, burst, sizeof burst);
    expect(written.answer == OWAC_MESSAGE_TOO_LONG && written.count == 0, "a message that is too long");
    written = owac_write_burst(longest, OWAC_LONGEST_MESSAGE, burst, 1000);
    expect(written.answer == OWAC_OUTPUT_TOO_SHORT && written.count == 0 && burst[0] == 0, "no room for a burst");
    written = owac_write_burst(longest, OWAC_LONGEST_MESSAGE, burst, sizeof burst);
    expect(written.answer == 0, "room for the longest burst");
    OwacHeardFrame heard = owac_hear_frame(burst, sizeof burst, written.count, 0, work, sizeof work);
    expect(heard.answer == OWAC_FRAME && heard.length == OWAC_LONGEST_MESSAGE + 2, "the longest message is heard");
    expect(memcmp(work, longest, OWAC_LONGEST_MESSAGE) == 0 && heard.next == written.count - 8, "as it was sent");
    heard = owac_hear_frame(burst, sizeof burst, written.count, written.count, work, sizeof work);
    expect(heard.answer == OWAC_FRAME_QUIET && heard.length == 0, "quiet");
    written = owac_write_burst(NULL, 0, burst, sizeof burst);
    heard = owac_hear_frame(burst, sizeof burst, written.count, 0, work, sizeof work);
    expect(written.answer == 0 && heard.answer == OWAC_FRAME && heard.length == 2, "an empty message");
    expect(owac_hear_frame(NULL, 0, 0, 0, work, sizeof work).answer == OWAC_FRAME_QUIET, "an empty burst is quiet");
    expect(owac_hear_frame(burst, sizeof burst, 0, 0, NULL, 0).answer == OWAC_WORK_TOO_SHORT, "an empty work buffer");
    expect(owac_write_burst(longest, 1, NULL, 0).answer == OWAC_OUTPUT_TOO_SHORT, "an empty output");
    expect(owac_mark(NULL, 0, &other.supply, &TAG_PAIR, &mark) == 0, "an empty image has no mark");
    expect(owac_fcs((const uint8_t *)"123456789", 9) == 0x906E && owac_fcs(NULL, 0) == 0, "the FCS");
}

int main(void)
{
    static House house;
    static Sheet tags;
    memcpy(house.image + CELLS * OWAC_CELL_OCTETS, "spare", SPARE);
    day(&house, &tags);
    other_jobs(&house, &tags);
    other_calls(&house);
    if (failures > 0) {
        printf("%d mismatches\n", failures);
        return 1;
    }
    printf("each track was queued once\n");
    return 0;
}
