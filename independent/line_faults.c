#include <string.h>

#include "line.h"

/* The words of a state that a fault changes, where include/harsolvek.h reads them. */
enum { PHASE = 3, BLOCKS = 4, BYTES = 5, VENDOR_PRODUCT = 10, VERSIONS = 11 };

static int receiver_in(const line_session *s, enum harsolvek_receiver_phase phase)
{
    return harsolvek_receiver_phase(&s->receiver) == (uint32_t)phase;
}

static int indoor_in(const line_session *s, enum harsolvek_indoor_phase phase)
{
    return harsolvek_indoor_phase(&s->indoor) == (uint32_t)phase;
}

static int block_arrived(const line_session *s)
{
    return s->arrived.length > LINE_HEAD && s->arrived.bytes[1] == LINE_DATA;
}

static void append_repeated(line_session *s)
{
    const size_t bytes = harsolvek_receiver_bytes(&s->receiver);
    if (block_arrived(s) && s->answered == HARSOLVEK_NOT_DUE &&
        line_number(&s->arrived) < harsolvek_receiver_blocks(&s->receiver)) {
        const size_t length = s->arrived.length - LINE_HEAD;
        if (bytes + length <= s->length) {
            memcpy(s->image + bytes, s->arrived.bytes + LINE_HEAD, length);
            s->receiver.word[BLOCKS]++;
            s->receiver.word[BYTES] += (uint32_t)length;
        }
    }
}

static void store_first_only(line_session *s)
{
    if (block_arrived(s) && s->answered == HARSOLVEK_TAKEN &&
        receiver_in(s, HARSOLVEK_RECEIVER_TRANSFER)) {
        const size_t at = line_number(&s->arrived) * HARSOLVEK_BLOCK_MOST;
        if (at > 0) {
            memcpy(s->image + at, s->expected + at, s->arrived.length - LINE_HEAD);
        }
    }
}

static void change_good_image(line_session *s)
{
    if (receiver_in(s, HARSOLVEK_RECEIVER_GOOD)) {
        s->image[s->length - 1] ^= 1;
    }
}

static void change_beyond(line_session *s)
{
    const size_t bytes = harsolvek_receiver_bytes(&s->receiver);
    if (bytes > 0) {
        s->image[bytes] ^= 1;
    }
}

static void alter_block(line_session *s)
{
    line_message *oldest = &s->requests.messages[0];
    if (!s->harmed && s->requests.count > 0 && oldest->bytes[1] == LINE_DATA &&
        oldest->length > LINE_HEAD) {
        oldest->bytes[LINE_HEAD] ^= 1;
        s->harmed = 1;
    }
}

static void bring_earlier_block(line_session *s)
{
    line_message *oldest = &s->requests.messages[0];
    const int at_block_0 =
        receiver_in(s, HARSOLVEK_RECEIVER_TRANSFER) && harsolvek_receiver_blocks(&s->receiver) == 0;
    if (!s->harmed && s->kind != LINE_CLEAN && at_block_0) {
        static const uint8_t head[LINE_HEAD] = {1, LINE_DATA, 0, 0};
        const size_t length = s->length < HARSOLVEK_BLOCK_MOST ? s->length : HARSOLVEK_BLOCK_MOST;
        oldest->length = LINE_HEAD + length;
        memcpy(oldest->bytes, head, LINE_HEAD);
        memset(oldest->bytes + LINE_HEAD, 'e', length);
        s->requests.count = 1;
        s->harmed = 1;
    }
}

static void be_done_early(line_session *s)
{
    if (indoor_in(s, HARSOLVEK_INDOOR_VALIDATE)) {
        s->indoor.word[PHASE] = HARSOLVEK_INDOOR_DONE;
    }
}

static void be_good_early(line_session *s)
{
    const size_t bytes = harsolvek_receiver_bytes(&s->receiver);
    if (receiver_in(s, HARSOLVEK_RECEIVER_TRANSFER) && bytes > 0 && bytes < s->length) {
        s->receiver.word[PHASE] = HARSOLVEK_RECEIVER_GOOD;
    }
}

static void be_good_unsigned(line_session *s)
{
    if (s->kind == LINE_UNSIGNED && receiver_in(s, HARSOLVEK_RECEIVER_AWAIT)) {
        s->receiver.word[PHASE] = HARSOLVEK_RECEIVER_GOOD;
    }
}

static void forget_good(line_session *s)
{
    if (s->done) {
        s->receiver.word[BLOCKS] = 0;
        s->receiver.word[BYTES] = 0;
        s->receiver.word[PHASE] = HARSOLVEK_RECEIVER_IDLE;
    }
}

static void count_byte_less(line_session *s)
{
    s->receiver.word[BYTES] -= s->receiver.word[BYTES] > 0;
}

static void add_to_sum(line_session *s)
{
    s->sum++;
}

static void count_request_twice(line_session *s)
{
    if (!s->harmed && indoor_in(s, HARSOLVEK_INDOOR_DONE)) {
        s->counts.sent++;
        s->harmed = 1;
    }
}

static void lose_in_clean(line_session *s)
{
    if (s->kind == LINE_CLEAN && s->counts.steps == 3) {
        s->requests.count = 0;
        s->responses.count = 0;
    }
}

static void end_good(line_session *s)
{
    if (s->good && !indoor_in(s, HARSOLVEK_INDOOR_DONE)) {
        s->receiver.word[PHASE] = HARSOLVEK_RECEIVER_AWAIT;
    }
}

static void end_done(line_session *s)
{
    if (s->done) {
        s->indoor.word[PHASE] = HARSOLVEK_INDOOR_FAILED;
    }
}

/* As if the release that is offered were the receiver's own, and newer. */
static void offer_as_newer(line_session *s)
{
    const harsolvek_identity identity = harsolvek_receiver_identity(&s->receiver);
    if (s->kind == LINE_OLD && indoor_in(s, HARSOLVEK_INDOOR_IDENTIFY)) {
        s->indoor.word[VENDOR_PRODUCT] = identity.vendor + 65536u * identity.product;
        s->indoor.word[VERSIONS] = UINT32_MAX;
        s->indoor.word[VERSIONS + 1] = UINT32_MAX;
    }
}

static void cut_request(line_session *s)
{
    line_message *oldest = &s->requests.messages[0];
    if (!s->harmed && s->requests.count > 0 && oldest->bytes[1] != LINE_DATA) {
        oldest->length--;
        s->harmed = 1;
    }
}

static void renumber_in_clean(line_session *s)
{
    line_message *oldest = &s->requests.messages[0];
    if (s->kind == LINE_CLEAN && s->requests.count > 0 && oldest->bytes[1] == LINE_DATA) {
        oldest->bytes[2] ^= 1;
    }
}

const struct line_fault line_faults[] = {
    {"the receiver puts a repeated block behind the accepted ones, as the harbour's old code did",
     append_repeated, "an accepted byte is not the file's"},
    {"the receiver stores block 0 and only counts the others", store_first_only,
     "an accepted byte is not the file's"},
    {"a byte of the image changes once it is marked good", change_good_image,
     "an accepted byte is not the file's"},
    {"a byte behind the accepted ones changes", change_beyond,
     "a byte has changed where no block was accepted"},
    {"the line alters a block", alter_block, "an accepted byte is not the file's"},
    {"the line brings a block of an earlier session", bring_earlier_block,
     "an accepted byte is not the file's"},
    {"the line cuts a request short", cut_request,
     "what one end wrote or what the harness lent is refused"},
    {"the indoor end is Done before VALIDATE is answered", be_done_early,
     "Done, and the receiver is not Good"},
    {"the indoor end offers a file as newer that is not", offer_as_newer,
     "Done with a file that is not newer or does not fit"},
    {"the indoor end is Failed after it was Done", end_done, "Good or Done has ended"},
    {"the receiver is Good in the middle of the file", be_good_early,
     "Good without the whole file"},
    {"the receiver is Good although the verdict is bad", be_good_unsigned,
     "Good without a good verdict"},
    {"the receiver forgets a good image", forget_good, "Done, and the receiver is not Good"},
    {"the receiver awaits VALIDATE again after it was Good", end_good, "Good or Done has ended"},
    {"the receiver counts a byte too few", count_byte_less,
     "the accepted bytes are not those of so many blocks"},
    {"the sum is one too many", add_to_sum, "the sum is not that of the accepted bytes"},
    {"a request is counted twice", count_request_twice,
     "a clean session has not ended Done after n + 4 requests"},
    {"the line loses a message in a clean session", lose_in_clean,
     "a clean session has not ended Done after n + 4 requests"},
    {"a block of a clean session has another number", renumber_in_clean,
     "another request than the one due in a clean session"},
};

const size_t line_fault_count = sizeof line_faults / sizeof line_faults[0];
