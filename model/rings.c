/* One operation on a ring of so many nodes, through the C face, for its cost.
   rings NODES RECORD OPERATION ROUNDS [OTHER]: RECORD is a file with a record's words (model record), RECORD.votes one with the votes
   that are given to it (model votes), and OTHER one of another record of the ring. Each round begins with RECORD. ROUNDS is their
   number; or time: then as many as a time takes, which is printed in nanoseconds of processor time a round; or count: one, and what
   the library's instructions add to qr_work is printed, where they are counted (model/counted). OPERATION is
     test     a vote of kind 9, refused right after the 17 test
     look     the rules, with nothing to do
     vote     the first of the votes
     tray     500 of them, or all where there are fewer, in one call
     lifeN    all votes, in trays of N, or one by one where N is 1
     take     the certificate that write writes, taken (a full record)
     write    the notar-fallback certificate of slot 16, signed by all but the own (a full record)
     check    that certificate checked
     check3   a certificate checked that three nodes signed, with nearly all of the stake
     check64  one that 64 nodes signed, or all where there are fewer, with nearly all of the stake
     light    one that three nodes signed (in a ring of three, one), with stakes of 1, refused with 15
     block    a block of slot 16
     signed   a certificate of slot 16 that all nodes signed, taken
     asked    the notar-fallback certificate of slot 16 for block 100 written, or its refusal
     proof    the finality proof of that block written, or its refusal
     card, armed, final, kept    what a slot's card, its window, its final block or a node's votes are
     differ   RECORD compared with OTHER
     five     makes the file RECORD, by the library alone: every node but the own has an initial vote for one of five blocks, two
              notar-fallbacks and a final in every slot, all of stake 1
     full     makes one with every place for certificates of every slot taken as well, each signed by all nodes */
#define _POSIX_C_SOURCE 199309L
#include <stdint.h>
#include <stdio.h>
#include <stdlib.h>
#include <string.h>
#include <time.h>

#include "quointrowel.h"

enum { VOTES = 500, FALLBACK = 20, BLOCK = 100, TRAY = 1000, HEAVY = 1000000, SMALL_MASKS = 1, LARGE_MASKS = 32 };
enum { BATCHES = 15, LEAST_BATCHES = 3 };
static const double BATCH_SECONDS = 0.01, SECONDS = 2.0;

typedef uint64_t words_of_a_record[QR_RECORD_WORDS(QR_MOST_NODES)];
static words_of_a_record record, kept, other;
static size_t changed[QR_RECORD_WORDS(QR_MOST_NODES)], changed_count;
static int is_dirty, knows_changed;
static uint64_t stakes[QR_MOST_NODES], heavy_stakes[QR_MOST_NODES];
static uint64_t outbox[QR_OUTBOX_WORDS], *votes, *answers, *list;
static uint8_t packet[QR_LARGE_CERTIFICATE_BYTES], signed_packet[QR_LARGE_CERTIFICATE_BYTES], proof[QR_LARGE_PROOF_BYTES];
static size_t nodes, words, made, written, signed_bytes, list_words, vote_count, most;

static void put_vote(size_t at, uint64_t kind, size_t node, size_t slot, uint64_t block)
{
    const uint64_t vote[4] = {kind, node, slot, block};
    memcpy(votes + 4 * at, vote, sizeof vote);
}

static uint64_t give_tray(size_t from, size_t count)
{
    return qr_tray(record, words, outbox, QR_OUTBOX_WORDS, &made, votes + 4 * from, 4 * count, answers, count);
}

static uint64_t give_vote(size_t at)
{
    const uint64_t *vote = votes + 4 * at;
    return qr_vote(record, words, outbox, QR_OUTBOX_WORDS, &made, vote[0], vote[1], vote[2], vote[3]);
}

static uint64_t live(void)
{
    uint64_t number = QR_DONE;
    for (size_t at = 0; at < vote_count && number == QR_DONE; at += most) {
        size_t left = vote_count - at;
        number = most == 1 ? give_vote(at) : give_tray(at, left < most ? left : most);
    }
    return number;
}

/* One vote by every node but the own in every slot: for the block, and so many blocks from it on in turn. */
static void everyone(uint64_t kind, uint64_t block, size_t blocks)
{
    size_t count = 0;
    for (size_t slot = 1; slot <= QR_LAST_SLOT; slot++)
        for (size_t node = 1; node < nodes; node++) {
            put_vote(count++, kind, node, slot, block + node % blocks);
            if (count == TRAY || (slot == QR_LAST_SLOT && node == nodes - 1)) {
                give_tray(0, count);
                count = 0;
            }
        }
}

static void make_five(void)
{
    everyone(QR_VOTE_NOTAR_FALLBACK, FALLBACK, 1);
    everyone(QR_VOTE_NOTAR_FALLBACK, FALLBACK + 1, 1);
    everyone(QR_VOTE_FINAL, 0, 1);
    everyone(QR_VOTE_NOTAR, BLOCK, 5);
}

static int write_record(const char *name)
{
    FILE *file = fopen(name, "wb");
    return !file || fwrite(record, sizeof *record, words, file) != words || fclose(file) != 0;
}

static int read_record(const char *name, uint64_t *place)
{
    FILE *file = fopen(name, "rb");
    return !file || fread(place, sizeof *place, words, file) != words || fclose(file) != 0;
}

static int make_room(size_t count)
{
    votes = malloc(4 * count * sizeof *votes);
    answers = malloc(count * sizeof *answers);
    return !votes || !answers;
}

static int read_votes(const char *record_name)
{
    char name[4096];
    if (snprintf(name, sizeof name, "%s.votes", record_name) >= (int)sizeof name)
        return 1;
    FILE *file = fopen(name, "rb");
    if (!file || fseek(file, 0, SEEK_END))
        return 1;
    vote_count = ftell(file) / (4 * sizeof *votes);
    rewind(file);
    return vote_count == 0 || make_room(vote_count) || fread(votes, 4 * sizeof *votes, vote_count, file) != vote_count || fclose(file) != 0;
}

static uint64_t write_certificate(uint64_t block)
{
    uint64_t kind = QR_CERTIFICATE_NOTAR_FALLBACK + (nodes > QR_MOST_SMALL ? QR_LARGE_KINDS : 0);
    return qr_write_certificate(record, words, packet, sizeof packet, &written, kind, QR_LAST_SLOT, block);
}

static void put_number(uint64_t number)
{
    for (; number > 0x7F; number >>= 7)
        signed_packet[signed_bytes++] = number | 0x80;
    signed_packet[signed_bytes++] = number;
}

/* A certificate that the first nodes signed, all in its mask A. */
static void sign(uint64_t kind, size_t slot, uint64_t block, size_t signers)
{
    int is_large = nodes > QR_MOST_SMALL;
    size_t masks = is_large ? LARGE_MASKS : SMALL_MASKS;
    signed_bytes = 0;
    put_number(kind + (is_large ? QR_LARGE_KINDS : 0));
    put_number(slot);
    put_number(block);
    for (size_t i = 0; i < 2 * masks; i++) {
        size_t left = i >= masks || signers <= 64 * i ? 0 : signers - 64 * i;
        put_number(left == 0 ? 0 : left >= 64 ? UINT64_MAX : UINT64_MAX >> (64 - left));
    }
}

static int take_signed(uint64_t kind, size_t slot, uint64_t block)
{
    sign(kind, slot, block, nodes);
    return qr_take(record, words, outbox, QR_OUTBOX_WORDS, &made, signed_packet, signed_bytes) != QR_DONE;
}

/* Every place for certificates taken. */
static int make_full(void)
{
    int refused = 0;
    for (size_t slot = 1; slot <= QR_LAST_SLOT; slot++) {
        refused |= take_signed(QR_CERTIFICATE_FAST_FINAL, slot, BLOCK) | take_signed(QR_CERTIFICATE_NOTAR, slot, BLOCK);
        refused |= take_signed(QR_CERTIFICATE_SKIP, slot, 0) | take_signed(QR_CERTIFICATE_FINAL, slot, 0);
        for (uint64_t place = 0; place < 9; place++)
            refused |= take_signed(QR_CERTIFICATE_NOTAR_FALLBACK, slot, FALLBACK + place);
    }
    return refused;
}

enum operation {
    TEST, LOOK, VOTE, TRAY_OF_VOTES, TAKE, WRITE, CHECK, CHECK_3, CHECK_64, LIGHT, BLOCK_TAKEN, SIGNED, ASKED, PROOF, CARD, ARMED, FINAL_BLOCK, KEPT_VOTES,
    DIFFER, LIFE, OPERATIONS
};

static enum operation named(const char *name)
{
    static const char *const names[LIFE] = {"test",  "look",  "vote",   "tray",  "take", "write", "check", "check3", "check64",
                                            "light", "block", "signed", "asked", "proof", "card", "armed", "final",  "kept",    "differ"};
    enum operation operation = 0;
    while (operation < LIFE && strcmp(names[operation], name))
        operation++;
    if (operation == LIFE && (strncmp(name, "life", 4) || (most = strtoul(name + 4, NULL, 10)) == 0))
        operation = OPERATIONS;
    return operation;
}

static uint64_t operate(enum operation operation)
{
    uint64_t values[QR_VOTES_WORDS], missing, number;
    size_t lines;
    switch (operation) {
    case TEST: return qr_vote(record, words, outbox, QR_OUTBOX_WORDS, &made, 9, 1, 1, 7) != QR_BAD_KIND;
    case LOOK: return qr_look(record, words, outbox, QR_OUTBOX_WORDS, &made);
    case VOTE: return give_vote(0);
    case TRAY_OF_VOTES: return give_tray(0, vote_count < VOTES ? vote_count : VOTES);
    case LIFE: return live();
    case TAKE: return qr_take(record, words, outbox, QR_OUTBOX_WORDS, &made, packet, written);
    case WRITE: return write_certificate(FALLBACK);
    case CHECK: return qr_check_certificate(stakes, nodes, packet, written, values, &missing);
    case CHECK_3:
    case CHECK_64: return qr_check_certificate(heavy_stakes, nodes, signed_packet, signed_bytes, values, &missing);
    case LIGHT: return qr_check_certificate(stakes, nodes, signed_packet, signed_bytes, values, &missing) != QR_TOO_LIGHT;
    case BLOCK_TAKEN: return qr_block(record, words, outbox, QR_OUTBOX_WORDS, &made, QR_LAST_SLOT, 7, QR_LAST_SLOT - 1, BLOCK);
    case SIGNED:
        number = qr_take(record, words, outbox, QR_OUTBOX_WORDS, &made, signed_packet, signed_bytes);
        return number != QR_ALREADY_KEPT && number != QR_OTHER_STANDS ? number : QR_DONE;
    case ASKED:
        number = write_certificate(BLOCK);
        return number != QR_NOT_HELD ? number : QR_DONE;
    case PROOF:
        number = qr_write_proof(record, words, proof, sizeof proof, &written, QR_LAST_SLOT, BLOCK);
        return number != QR_NOT_HELD ? number : QR_DONE;
    case CARD: return qr_card(record, words, QR_LAST_SLOT, values);
    case ARMED: return qr_is_armed(record, words, QR_LAST_SLOT, values);
    case FINAL_BLOCK: return qr_final_block(record, words, QR_LAST_SLOT, values);
    case KEPT_VOTES: return qr_kept_votes(record, words, QR_LAST_SLOT, nodes - 1, values);
    case DIFFER: return qr_differ(record, words, other, words, list, list_words, &lines);
    default: return 1;
    }
}

static int changes(enum operation operation)
{
    return operation == VOTE || operation == TRAY_OF_VOTES || operation == LIFE || operation == TAKE || operation == SIGNED || operation == BLOCK_TAKEN;
}

/* Puts back what the operation changed, and no more, so that the rest of the record stays where a host's would stay, near. */
static void renew(void)
{
    if (!is_dirty)
        return;
    if (!knows_changed)
        for (size_t i = 0; i < words; i++)
            if (record[i] != kept[i])
                changed[changed_count++] = i;
    knows_changed = 1;
    for (size_t i = 0; i < changed_count; i++)
        record[changed[i]] = kept[changed[i]];
}

static int rounds(enum operation operation, unsigned long count)
{
    for (; count > 0; count--) {
        renew();
        if (operate(operation) != 0)
            return 1;
        is_dirty = changes(operation);
    }
    return 0;
}

static double seconds(void)
{
    struct timespec now;
    clock_gettime(CLOCK_PROCESS_CPUTIME_ID, &now);
    return now.tv_sec + now.tv_nsec / 1e9;
}

/* The least of so many batches, each at least so long; fewer where they take longer than all of them should. */
static int tell_time(enum operation operation)
{
    double least = 0, begun, took = 0;
    unsigned long count = 1;
    if (rounds(operation, 1))
        return 1;
    for (; took < BATCH_SECONDS; count *= took < BATCH_SECONDS ? 2 : 1) {
        begun = seconds();
        rounds(operation, count);
        took = seconds() - begun;
    }
    double all = seconds();
    for (int done = 0; done < BATCHES && (done < LEAST_BATCHES || seconds() - all < SECONDS); done++) {
        begun = seconds();
        rounds(operation, count);
        took = seconds() - begun;
        if (done == 0 || took < least)
            least = took;
    }
    printf("%.1f\n", least / count * 1e9);
    return 0;
}

/* Where the library counts its instructions, it counts them here. */
#ifdef COUNTED
uint64_t qr_work;

void *qr_memcpy(void *to, const void *from, size_t bytes)
{
    qr_work += bytes / 16;
    return memcpy(to, from, bytes);
}

void *qr_memset(void *to, int byte, size_t bytes)
{
    qr_work += bytes / 16;
    return memset(to, byte, bytes);
}

static int tell_work(enum operation operation)
{
    uint64_t before = qr_work;
    if (rounds(operation, 1))
        return 1;
    printf("%llu\n", (unsigned long long)(qr_work - before));
    return 0;
}
#else
static int tell_work(enum operation operation)
{
    (void)operation;
    return 1;
}
#endif

/* The record that every round begins with, and what the operations need. */
static int prepare(const char *name, enum operation operation, const char *other_name)
{
    if (read_record(name, record) || read_votes(name))
        return 1;
    size_t signers = operation == CHECK_64 && nodes > 64 ? 64 : operation == CHECK_64 ? nodes : nodes > 3 || operation == CHECK_3 ? 3 : 1;
    for (size_t i = 0; i < nodes; i++)
        heavy_stakes[i] = i < signers ? HEAVY : 1;
    if (operation == SIGNED)
        sign(QR_CERTIFICATE_NOTAR_FALLBACK, QR_LAST_SLOT, 7, nodes);
    else
        sign(QR_CERTIFICATE_NOTAR, 1, 7, signers);
    if (operation == DIFFER) {
        list_words = QR_LINE_WORDS * 8 * QR_LAST_SLOT * nodes;
        list = malloc(list_words * sizeof *list);
        if (!list || read_record(other_name, other))
            return 1;
    }
    write_certificate(FALLBACK);
    uint64_t number = qr_look(record, words, outbox, QR_OUTBOX_WORDS, &made);
    memcpy(kept, record, words * sizeof *record);
    return number != QR_DONE;
}

int main(int count, char **word)
{
    if (count < 5)
        return 1;
    nodes = strtoul(word[1], NULL, 10);
    for (size_t i = 0; i < QR_MOST_NODES; i++)
        stakes[i] = 1;
    words = qr_record_words(nodes);
    if (nodes < 2 || nodes > QR_MOST_NODES)
        return 1;
    int is_full = !strcmp(word[3], "full");
    if (is_full || !strcmp(word[3], "five")) {
        if (make_room(TRAY) || qr_start(record, words, stakes, nodes, 0, 1) != QR_DONE)
            return 1;
        make_five();
        return (is_full && make_full()) || write_record(word[2]);
    }
    enum operation operation = named(word[3]);
    if (prepare(word[2], operation, count > 5 ? word[5] : ""))
        return 1;
    if (!strcmp(word[4], "count"))
        return tell_work(operation);
    return !strcmp(word[4], "time") ? tell_time(operation) : rounds(operation, strtoul(word[4], NULL, 10));
}
