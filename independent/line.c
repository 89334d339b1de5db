/*
 * Both ends of the library over a line that loses, repeats, delays and reorders: demand 3, looked
 * at behind every step.
 *
 *     tools/c run line SESSIONS [SEED]
 *     tools/c run line SESSIONS [SEED] --fault N    with one fault of the harness, which is found
 *     tools/c run line faults SESSIONS [SEED]
 *
 * A session is one file from one indoor end to one receiver. Nothing is left over from an earlier
 * one, and the line neither adds nor alters a message. Session i is drawn from SEED + i, so that
 * `line 1 S` plays the one again that a failure names as S; a failure is printed and kept. With
 * `faults` the harness itself breaks, one after the other, the things that demand 3 rests on or
 * claims, and the exit status is 0 if each is found by the check that is there for it.
 */
#include <inttypes.h>
#include <stdio.h>
#include <string.h>

#include "failed.h"
#include "lent.h"
#include "line.h"
#include "order.h"

/* How long a session goes on once the indoor end has ended, for what is still in flight. */
#define TAIL_STEPS 40u

/* From how many sessions on the counts must show something, and something of the longest files. */
#define SESSIONS_TELLING 500u
#define SESSIONS_LONG    5000u

static const char *const kinds[] = {"clean", "lossy", "file not newer", "file does not fit",
                                    "verdict bad"};

static line_session session; /* only one is played at a time */

static struct {
    unsigned long done[LINE_KINDS];
    unsigned long failed[LINE_KINDS];
    unsigned long unfinished[LINE_KINDS];
    unsigned long reasons[HARSOLVEK_FILE_SIZE];
    unsigned long longest;      /* sessions of a file longer than LINE_CARRY */
    unsigned long longest_done; /* that ended Done */
    line_counts all;
    unsigned long most_steps;
} tally;

static size_t smaller(size_t one, size_t other)
{
    return one < other ? one : other;
}

static const char *check_phases(line_session *s)
{
    const int good = harsolvek_receiver_phase(&s->receiver) == HARSOLVEK_RECEIVER_GOOD;
    const int done = harsolvek_indoor_phase(&s->indoor) == HARSOLVEK_INDOOR_DONE;
    if (good && harsolvek_receiver_bytes(&s->receiver) != s->length) {
        return "Good without the whole file";
    }
    if (good && s->kind == LINE_UNSIGNED) {
        return "Good without a good verdict";
    }
    if (done && !good) {
        return "Done, and the receiver is not Good";
    }
    if ((s->good && !good) || (s->done && !done)) {
        return "Good or Done has ended";
    }
    s->good = good;
    s->done = done;
    return NULL;
}

/* The image has the file's bytes as far as a block was ever accepted, also once the receiver is
 * back in Idle (01, The receiver's phases); after them, what was there before the session. */
static const char *check_image(line_session *s)
{
    const size_t blocks = harsolvek_receiver_blocks(&s->receiver);
    const size_t bytes = harsolvek_receiver_bytes(&s->receiver);
    if (bytes != smaller(blocks * HARSOLVEK_BLOCK_MOST, s->length) || bytes > s->capacity) {
        return "the accepted bytes are not those of so many blocks";
    }
    if (bytes > s->placed) {
        memcpy(s->expected + s->placed, s->file + s->placed, bytes - s->placed);
        s->placed = bytes;
    }
    if (memcmp(s->image, s->expected, s->placed) != 0) {
        return "an accepted byte is not the file's";
    }
    if (memcmp(s->image + s->placed, s->expected + s->placed,
               s->capacity + LINE_GUARD - s->placed) != 0) {
        return "a byte has changed where no block was accepted";
    }
    if (s->sum_answered != HARSOLVEK_TAKEN || s->sum != s->sums[bytes]) {
        return "the sum is not that of the accepted bytes";
    }
    return NULL;
}

/* The line alters nothing and the harness lends what it should: neither end has cause to answer 20
 * or 26 to 29. */
static const char *check_answer(const line_session *s)
{
    if (s->answered == HARSOLVEK_MALFORMED ||
        (s->answered >= HARSOLVEK_OUT_OF_RANGE && s->answered <= HARSOLVEK_SETTINGS)) {
        return "what one end wrote or what the harness lent is refused";
    }
    return NULL;
}

/* The requests of a clean session: GET_FW_ID, INITIATE, each block once, the empty block,
 * VALIDATE. */
static const char *check_clean_request(const line_session *s)
{
    const line_message *request = &s->requests.messages[0];
    const size_t before = s->counts.sent - 1;
    enum line_type due = LINE_DATA;
    if (s->kind != LINE_CLEAN || s->requests.count == 0) {
        return NULL;
    }
    if (before < 2) {
        due = before == 0 ? LINE_GET_FW_ID : LINE_INITIATE;
    } else if (before == line_blocks(s) + 3) {
        due = LINE_VALIDATE;
    }
    if (s->requests.count != 1 || request->bytes[1] != due ||
        (due == LINE_DATA && line_number(request) != before - 2)) {
        return "another request than the one due in a clean session";
    }
    return NULL;
}

static const char *check_step(line_session *s)
{
    const char *words = check_phases(s);
    words = words == NULL ? check_image(s) : words;
    words = words == NULL ? check_answer(s) : words;
    return words == NULL ? check_clean_request(s) : words;
}

static const char *check_end(const line_session *s)
{
    if (s->kind == LINE_CLEAN && (!s->done || s->counts.sent != line_blocks(s) + 4)) {
        return "a clean session has not ended Done after n + 4 requests";
    }
    if ((s->kind == LINE_OLD || s->kind == LINE_SMALL) && s->done) {
        return "Done with a file that is not newer or does not fit";
    }
    return NULL;
}

static int has_ended(const line_session *s)
{
    const uint32_t phase = harsolvek_indoor_phase(&s->indoor);
    return phase == HARSOLVEK_INDOOR_DONE || phase == HARSOLVEK_INDOOR_FAILED;
}

/* Plays until the indoor end has ended and a while longer; a clean session until nothing is in
 * flight. */
static const char *play(line_session *s, uint64_t seed, const struct line_fault *fault)
{
    const char *words = line_start(s, seed);
    const unsigned long most = 2000 + 50 * line_blocks(s);
    unsigned tail = TAIL_STEPS;
    while (words == NULL && s->counts.steps < most && tail > 0 &&
           !(s->kind == LINE_CLEAN && line_is_still(s))) {
        line_step(s);
        if (fault != NULL) {
            fault->harm(s);
        }
        words = check_step(s);
        if (has_ended(s)) {
            tail--;
        }
    }
    return words == NULL ? check_end(s) : words;
}

static void count(const line_session *s)
{
    unsigned long *ended = s->done ? tally.done : has_ended(s) ? tally.failed : tally.unfinished;
    ended[s->kind]++;
    tally.reasons[harsolvek_indoor_reason(&s->indoor)]++;
    tally.longest += s->length > LINE_CARRY;
    tally.longest_done += s->length > LINE_CARRY && s->done;
    tally.all.sent += s->counts.sent;
    tally.all.lost += s->counts.lost;
    tally.all.repeated += s->counts.repeated;
    tally.all.reordered += s->counts.reordered;
    tally.all.steps += s->counts.steps;
    if (s->counts.steps > tally.most_steps) {
        tally.most_steps = s->counts.steps;
    }
}

static void print_counts(void)
{
    for (int kind = 0; kind < LINE_KINDS; kind++) {
        printf("%s: %lu Done, %lu Failed, ", kinds[kind], tally.done[kind], tally.failed[kind]);
        printf("%lu unfinished\n", tally.unfinished[kind]);
    }
    for (int reason = HARSOLVEK_SILENCE; reason < HARSOLVEK_FILE_SIZE; reason++) {
        printf("failed with %d: %lu\n", reason, tally.reasons[reason]);
    }
    printf("files above %u bytes: %lu, %lu of them Done\n", LINE_CARRY, tally.longest,
           tally.longest_done);
    printf("%lu requests; %lu messages lost, %lu repeated, %lu reordered\n", tally.all.sent,
           tally.all.lost, tally.all.repeated, tally.all.reordered);
    printf("%lu steps, at most %lu in a session\n", tally.all.steps, tally.most_steps);
}

/* A run in which few sessions end Done, or in which one of these reasons is never met, would say
 * little. */
static int tells_enough(void)
{
    const unsigned long lossy =
        tally.done[LINE_LOSSY] + tally.failed[LINE_LOSSY] + tally.unfinished[LINE_LOSSY];
    return 4 * tally.done[LINE_LOSSY] >= lossy && tally.reasons[HARSOLVEK_SILENCE] > 0 &&
           tally.reasons[HARSOLVEK_NOT_NEWER] > 0 && tally.reasons[HARSOLVEK_TOO_LARGE] > 0 &&
           tally.reasons[HARSOLVEK_NOT_VALID] > 0;
}

/* Plays sessions up to the first in which something is wrong; words for it, or NULL. */
static const char *find(const order *given, const struct line_fault *fault)
{
    for (unsigned long i = 0; i < given->count; i++) {
        const char *words = play(&session, given->seed + i, fault);
        if (words != NULL) {
            return words;
        }
        count(&session);
    }
    return NULL;
}

static void print_failure(FILE *to, const char *words)
{
    fprintf(to, "seed %" PRIu64 ", step %lu: %s\n", session.seed, session.counts.steps, words);
}

/* Whether each fault was found by the check that is there for it. */
static int show_faults(const order *given)
{
    size_t found = 0;
    for (size_t fault = 0; fault < line_fault_count; fault++) {
        const char *words = find(given, &line_faults[fault]);
        const int met = words != NULL && strcmp(words, line_faults[fault].found_by) == 0;
        if (words != NULL) {
            print_failure(stdout, words);
        }
        printf("%s: %s\n", met ? "found" : "not found", line_faults[fault].what);
        if (words != NULL && !met) {
            printf("  but the words due are: %s\n", line_faults[fault].found_by);
        }
        found += met ? 1 : 0;
    }
    printf("faults: %lu of %lu found\n", (unsigned long)found, (unsigned long)line_fault_count);
    return found == line_fault_count ? 0 : 1;
}

typedef struct failure {
    const char *words;
    int fault;
} failure;

static void tell(FILE *to, const void *failed)
{
    const failure *what = failed;
    const line_session *s = &session;
    const order again = {1, s->seed, what->fault};
    print_failure(to, what->words);
    fprintf(to, "  %s; file %lu bytes, image memory %lu\n", kinds[s->kind],
            (unsigned long)s->length, (unsigned long)s->capacity);
    fprintf(to, "  receiver: phase %u, blocks %u, bytes %lu; ",
            (unsigned)harsolvek_receiver_phase(&s->receiver),
            (unsigned)harsolvek_receiver_blocks(&s->receiver),
            (unsigned long)harsolvek_receiver_bytes(&s->receiver));
    fprintf(to, "indoor end: phase %u, reason %u\n", (unsigned)harsolvek_indoor_phase(&s->indoor),
            (unsigned)harsolvek_indoor_reason(&s->indoor));
    lent_print(to, "arrived", s->arrived.bytes, s->arrived.length);
    fprintf(to, "  answered %u\n", s->answered);
    order_print_again(to, "line", &again);
}

static void keep(const char *words, int fault)
{
    const failure what = {words, fault};
    char name[100];
    snprintf(name, sizeof name, "line-seed%" PRIu64, session.seed);
    failed_keep(name, fault, tell, &what);
}

/* Whether the fault was found; what failed is kept as if it were none. */
static int show_fault(const order *given)
{
    const struct line_fault *fault = &line_faults[given->fault - 1];
    const char *words = find(given, fault);
    printf("%s: %s\n", words != NULL ? "found" : "not found", fault->what);
    if (words != NULL) {
        keep(words, given->fault);
    }
    return words != NULL ? 0 : 1;
}

static int show_demand(const order *given)
{
    const char *words = find(given, NULL);
    if (words != NULL) {
        keep(words, 0);
        return 1;
    }
    print_counts();
    if (given->count >= SESSIONS_TELLING && !tells_enough()) {
        printf(
            "too few sessions ended Done, or one of the reasons 40, 42, 43 and 45 was never met\n");
        return 1;
    }
    if (given->count >= SESSIONS_LONG && tally.longest_done == 0) {
        printf("no file above %u bytes ended Done\n", LINE_CARRY);
        return 1;
    }
    printf("%lu sessions: demand 3 held behind every step\n", given->count);
    return 0;
}

int main(int count, char **words)
{
    const int faults = count > 1 && strcmp(words[1], "faults") == 0;
    const int from = faults ? 2 : 1;
    order given;
    if (!order_read(&given, count - from, words + from, (int)line_fault_count) ||
        given.count == 0 || (faults && given.fault != 0)) {
        fprintf(stderr, "usage: line SESSIONS [SEED] [--fault N]; line faults SESSIONS [SEED]\n");
        return 2;
    }
    printf("line: sessions from seed %" PRIu64 "\n", given.seed);
    if (faults) {
        return show_faults(&given);
    }
    return given.fault != 0 ? show_fault(&given) : show_demand(&given);
}
