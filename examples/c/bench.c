/* Bench cases B1 and B9 of the scope document, through the C face: one node of stake 5, one block, what is read of the node, its
   finality proof; and a proof that is too light, with what is missing. Then a vote as a message, a tray of votes and the tally card
   after it, a certificate that one node wrote and another takes, and a ring of 100 nodes, whose certificates have the kinds 11 to 15.
   Last a proof that comes byte by byte, and what some numbers mean. */
#include <inttypes.h>
#include <stdio.h>
#include <string.h>

#include "quointrowel.h"

static void show_records(const char *what, uint64_t number, const uint64_t *outbox, size_t made)
{
    printf("%s: %" PRIu64 ", %zu records:", what, number, made);
    for (size_t i = 0; i < made; i++)
        printf(" (%" PRIu64 ",%" PRIu64 ",%" PRIu64 ")", outbox[3 * i], outbox[3 * i + 1], outbox[3 * i + 2]);
    printf("\n");
}

static void show_check(const char *what, uint64_t number, const uint64_t values[5], uint64_t missing)
{
    printf("%s: %" PRIu64 ", kind %" PRIu64 " slot %" PRIu64 " block %" PRIu64 " signers %" PRIu64 " weight %" PRIu64
           ", missing %" PRIu64 "\n",
           what, number, values[0], values[1], values[2], values[3], values[4], missing);
}

/* What a host reads of B1's node: the final block, the armed window, the own votes; and slots and nodes that are none. */
static void show_readers(const uint64_t *record)
{
    const size_t words = QR_RECORD_WORDS(1);
    uint64_t block, armed, votes[QR_VOTES_WORDS];
    uint64_t number = qr_final_block(record, words, 1, &block);
    printf("final in slot 1: %" PRIu64 ", block %" PRIu64, number, block);
    number = qr_final_block(record, words, 2, &block);
    printf("; in slot 2: %" PRIu64 ", block %" PRIu64, number, block);
    number = qr_final_block(record, words, 0, &block);
    printf("; in slot 0: %" PRIu64 "\n", number);
    number = qr_is_armed(record, words, 4, &armed);
    printf("armed in slot 4: %" PRIu64 ", %" PRIu64, number, armed);
    number = qr_is_armed(record, words, 5, &armed);
    printf("; in slot 5: %" PRIu64 ", %" PRIu64, number, armed);
    number = qr_is_armed(record, words - 1, 4, &armed);
    printf("; of words that are no record: %" PRIu64 "\n", number);
    number = qr_kept_votes(record, words, 1, 0, votes);
    printf("votes of node 0 in slot 1: %" PRIu64 ":", number);
    for (size_t i = 0; i < QR_VOTES_WORDS; i++)
        printf(" %" PRIu64, votes[i]);
    number = qr_kept_votes(record, words, 1, 1, votes);
    printf("; of node 1: %" PRIu64 "\n", number);
}

/* What else B1's node keeps: the block with its parent, the marks of a slot, whose record it is. */
static void show_kept(const uint64_t *record)
{
    const size_t words = QR_RECORD_WORDS(1);
    uint64_t blocks[QR_BLOCKS_WORDS], marks[2], head[4];
    uint64_t number = qr_kept_blocks(record, words, 1, blocks);
    printf("blocks of slot 1: %" PRIu64 ":", number);
    for (size_t i = 0; i < QR_BLOCKS_WORDS; i++)
        printf(" %" PRIu64, blocks[i]);
    number = qr_kept_blocks(record, words, 17, blocks);
    printf("; of slot 17: %" PRIu64 "\n", number);
    number = qr_slot_marks(record, words, 1, marks);
    printf("marks of slot 1: %" PRIu64 ": %" PRIu64 " %" PRIu64, number, marks[0], marks[1]);
    number = qr_slot_marks(record, words, 0, marks);
    printf("; of slot 0: %" PRIu64 "\n", number);
    number = qr_head(record, words, head);
    printf("head: %" PRIu64 ": %" PRIu64 " %" PRIu64 " %" PRIu64 " %" PRIu64, number, head[0], head[1], head[2], head[3]);
    number = qr_head(record, words - 1, head);
    printf("; of words that are no record: %" PRIu64 "\n", number);
}

/* What B1's votes weigh for its block; and a certificate from elsewhere, kept and told, with a list that is too short. */
static void show_weights(const uint64_t *record)
{
    const size_t words = QR_RECORD_WORDS(1);
    static const uint8_t skip[] = {4, 2, 0, 1, 0};
    static uint64_t copy[QR_RECORD_WORDS(1)], outbox[QR_OUTBOX_WORDS];
    uint64_t weights[4], list[QR_MOST_CERTIFICATES * QR_LINE_WORDS];
    size_t made, lines;
    uint64_t number = qr_block_weights(record, words, 1, 7, weights);
    printf("weights of block 7 in slot 1: %" PRIu64 ":", number);
    for (size_t i = 0; i < 4; i++)
        printf(" %" PRIu64, weights[i]);
    number = qr_block_weights(record, words, 2, 7, weights);
    printf("; in slot 2 missing %" PRIu64, weights[3]);
    number = qr_block_weights(record, words, 1, 0, weights);
    printf("; of block 0: %" PRIu64 "\n", number);
    memcpy(copy, record, sizeof copy);
    qr_take(copy, words, outbox, QR_OUTBOX_WORDS, &made, skip, sizeof skip);
    number = qr_kept_certificates(copy, words, 2, list, sizeof list / sizeof *list, &lines);
    printf("certificates of slot 2: %" PRIu64 ", %zu: kind %" PRIu64 " slot %" PRIu64 " block %" PRIu64 " signers %" PRIu64 " weight %" PRIu64,
           number, lines, list[0], list[1], list[2], list[3], list[4]);
    number = qr_kept_certificates(copy, words, 2, list, QR_LINE_WORDS - 1, &lines);
    printf("; in four words: %" PRIu64 " %zu", number, lines);
    number = qr_kept_certificates(copy, words, 0, list, 0, &lines);
    printf("; of slot 0: %" PRIu64 " %zu\n", number, lines);
}

/* Whether B1's node may be announced block 8 beside its block 7, and block 9 in slot 2; and its own block again. */
static void show_may(const uint64_t *record)
{
    const size_t words = QR_RECORD_WORDS(1);
    uint64_t now;
    uint64_t number = qr_may_announce(record, words, 1, 8, 0, 1, &now);
    printf("block 8 in slot 1 may be announced: %" PRIu64 ", %" PRIu64, number, now);
    number = qr_may_announce(record, words, 2, 9, 1, 7, &now);
    printf("; block 9 in slot 2: %" PRIu64 ", %" PRIu64, number, now);
    number = qr_may_announce(record, words, 1, 7, 0, 1, &now);
    printf("; block 7 again: %" PRIu64 "\n", number);
}

/* Where B9's proof of two certificates falls apart, and half of it. */
static void show_split(const uint64_t *record)
{
    const uint8_t proof[] = {2, 1, 7, 1, 0, 5, 1, 0, 1, 0};
    size_t first;
    uint64_t number = qr_split_proof(record, QR_RECORD_WORDS(1), proof, sizeof proof, &first);
    printf("proof of 10 bytes: %" PRIu64 ", first certificate %zu", number, first);
    number = qr_split_proof(record, QR_RECORD_WORDS(1), proof, 5, &first);
    printf("; half of it: %" PRIu64 "\n", number);
}

/* What a number means; and a buffer that is too short. */
static void show_text(uint64_t number)
{
    uint8_t text[QR_TEXT_BYTES];
    size_t written;
    uint64_t answer = qr_refusal_text(text, sizeof text, &written, number);
    printf("text of %" PRIu64 ": %" PRIu64 ", %.*s", number, answer, (int)written, (const char *)text);
    answer = qr_refusal_text(text, sizeof text - 1, &written, number);
    printf(" Into 511 bytes: %" PRIu64 ", %zu bytes\n", answer, written);
}

/* A vote written for another member, and read again. */
static void show_message(void)
{
    uint8_t message[QR_VOTE_BYTES];
    uint64_t vote[4];
    size_t written;
    uint64_t number = qr_write_vote(message, sizeof message, &written, QR_MOST_NODES, QR_VOTE_NOTAR, 63, QR_LAST_SLOT, 300);
    printf("message: %" PRIu64 ", %zu bytes:", number, written);
    for (size_t i = 0; i < written; i++)
        printf(" %02X", message[i]);
    number = qr_read_vote(QR_MOST_NODES, message, written, vote);
    printf("; read: %" PRIu64 ", kind %" PRIu64 " node %" PRIu64 " slot %" PRIu64 " block %" PRIu64 "\n", number, vote[0], vote[1],
           vote[2], vote[3]);
}

/* A node of stakes 4, 3, 3 catches up on four votes at once: a vote, one in its own name, the first again, another node's. */
static void show_tray(uint64_t *record, uint64_t *outbox)
{
    const uint64_t stakes[3] = {4, 3, 3};
    const uint64_t votes[16] = {1, 1, 1, 7, 1, 0, 1, 7, 1, 1, 1, 7, 3, 2, 1, 0};
    uint64_t answers[5] = {99, 99, 99, 99, 99};
    size_t made;
    if (qr_start(record, QR_RECORD_WORDS(3), stakes, 3, 0, 1) != QR_DONE)
        return;
    uint64_t number = qr_tray(record, QR_RECORD_WORDS(3), outbox, QR_OUTBOX_WORDS, &made, votes, 16, answers, 5);
    show_records("tray", number, outbox, made);
    printf("answers:");
    for (size_t i = 0; i < 5; i++)
        printf(" %" PRIu64, answers[i]);
    number = qr_tray(record, QR_RECORD_WORDS(3), outbox, QR_OUTBOX_WORDS, &made, votes, 15, answers, 3);
    printf("; a part at the end: %" PRIu64 "\n", number);
}

/* What the votes of slot 1 weigh after that tray; and a slot that is none. */
static void show_card(const uint64_t *record)
{
    uint64_t card[5];
    uint64_t number = qr_card(record, QR_RECORD_WORDS(3), 1, card);
    printf("card of slot 1: %" PRIu64 ", skip %" PRIu64 " final %" PRIu64 " skip certificate %" PRIu64 " block %" PRIu64 " weight %" PRIu64,
           number, card[0], card[1], card[2], card[3], card[4]);
    number = qr_card(record, QR_RECORD_WORDS(3), QR_LAST_SLOT + 1, card);
    printf("; of slot 17: %" PRIu64 ", skip %" PRIu64 "\n", number, card[0]);
}

/* A proof that comes byte by byte, one that is cut short, and an end with no piece before it. */
static void show_pieces(const uint64_t *stakes, size_t stake_count, const uint8_t *proof, size_t proof_bytes)
{
    static uint64_t words[QR_PIECES_WORDS];
    static uint8_t front[QR_PIECES_BYTES];
    uint64_t values[5], missing;
    printf("pieces:");
    for (size_t i = 0; i < proof_bytes; i++)
        printf(" %" PRIu64, qr_piece(words, QR_PIECES_WORDS, front, QR_PIECES_BYTES, stakes, i == 0 ? stake_count : 0, proof + i, 1));
    printf("\n");
    uint64_t number = qr_end(words, QR_PIECES_WORDS, front, QR_PIECES_BYTES, values, &missing);
    show_check("their end", number, values, missing);
    number = qr_piece(words, QR_PIECES_WORDS, front, QR_PIECES_BYTES, stakes, stake_count, proof, proof_bytes - 1);
    printf("cut short: %" PRIu64, number);
    number = qr_end(words, QR_PIECES_WORDS, front, QR_PIECES_BYTES, values, &missing);
    printf(", end: %" PRIu64, number);
    number = qr_end(words, QR_PIECES_WORDS, front, QR_PIECES_BYTES, values, &missing);
    printf("; no piece: %" PRIu64, number);
    number = qr_piece(words, QR_PIECES_WORDS, front, QR_PIECES_BYTES, stakes, 0, proof, 1);
    printf("; no stakes: %" PRIu64, number);
    words[0] = 1;
    number = qr_end(words, QR_PIECES_WORDS, front, QR_PIECES_BYTES, values, &missing);
    printf("; a state that no call left: %" PRIu64 "\n", number);
}

/* Up to four blocks of a slot are kept, each number with one parent. */
static void show_blocks(uint64_t *record, uint64_t *outbox)
{
    const uint64_t stakes[3] = {4, 3, 3};
    uint64_t number;
    size_t made;
    if (qr_start(record, QR_RECORD_WORDS(3), stakes, 3, 0, 1) != QR_DONE)
        return;
    printf("blocks 21 to 25 of slot 2:");
    for (uint64_t block = 21; block <= 25; block++) {
        number = qr_block(record, QR_RECORD_WORDS(3), outbox, QR_OUTBOX_WORDS, &made, 2, block, 1, 10);
        printf(" %" PRIu64, number);
    }
    number = qr_block(record, QR_RECORD_WORDS(3), outbox, QR_OUTBOX_WORDS, &made, 2, 21, 1, 10);
    printf("; 21 again: %" PRIu64, number);
    number = qr_block(record, QR_RECORD_WORDS(3), outbox, QR_OUTBOX_WORDS, &made, 2, 21, 1, 11);
    printf("; 21 with another parent: %" PRIu64 "\n", number);
}

/* Node 1 has everybody's notar votes for block 7 and writes a certificate of them; node 2 has none, takes it, and has a final
   block whose proof it can write. */
static void show_taking(uint64_t *record, uint64_t *outbox)
{
    const uint64_t stakes[3] = {4, 3, 3};
    const uint64_t votes[12] = {1, 0, 1, 7, 1, 1, 1, 7, 1, 2, 1, 7};
    const uint8_t other_block[5] = {0x01, 0x01, 0x08, 0x07, 0x00}, two_signers[5] = {0x01, 0x01, 0x07, 0x03, 0x00};
    static uint64_t writer[QR_RECORD_WORDS(3)];
    uint64_t answers[3];
    uint8_t packet[QR_CERTIFICATE_BYTES], proof[QR_PROOF_BYTES];
    size_t words = QR_RECORD_WORDS(3), made, written, proof_bytes;

    qr_start(writer, words, stakes, 3, 1, 1);
    qr_block(writer, words, outbox, QR_OUTBOX_WORDS, &made, 1, 7, 0, 1);
    qr_tray(writer, words, outbox, QR_OUTBOX_WORDS, &made, votes, 12, answers, 3);
    uint64_t number = qr_write_certificate(writer, words, packet, sizeof packet, &written, QR_CERTIFICATE_FAST_FINAL, 1, 7);
    printf("certificate: %" PRIu64 ", %zu bytes\n", number, written);
    qr_start(record, words, stakes, 3, 2, 1);
    number = qr_take(record, words, outbox, QR_OUTBOX_WORDS, &made, packet, written);
    show_records("taken", number, outbox, made);
    number = qr_take(record, words, outbox, QR_OUTBOX_WORDS, &made, packet, written);
    printf("again: %" PRIu64, number);
    number = qr_take(record, words, outbox, QR_OUTBOX_WORDS, &made, other_block, sizeof other_block);
    printf("; for another block: %" PRIu64, number);
    number = qr_take(record, words, outbox, QR_OUTBOX_WORDS, &made, two_signers, sizeof two_signers);
    printf("; by two signers: %" PRIu64, number);
    number = qr_take(record, words, outbox, QR_OUTBOX_WORDS, &made, packet, written - 1);
    printf("; a byte short: %" PRIu64 "\n", number);
    number = qr_write_proof(record, words, proof, sizeof proof, &proof_bytes, 1, 7);
    printf("its proof: %" PRIu64 ", %zu bytes:", number, proof_bytes);
    for (size_t i = 0; i < proof_bytes; i++)
        printf(" %02X", proof[i]);
    printf("\n");
}

/* Gives a watcher the votes that node 0 cast in a call, out of that call's outbox; answers how many there were. */
static size_t follow(uint64_t *watcher, const uint64_t *outbox, size_t made)
{
    static uint64_t told[QR_OUTBOX_WORDS];
    size_t cast = 0, more;
    for (size_t i = 0; i < made; i++) {
        const uint64_t *made_record = outbox + 3 * i;
        if (made_record[0] > QR_RECORD_FINAL)
            continue;
        cast += qr_vote(watcher, QR_RECORD_WORDS(3), told, QR_OUTBOX_WORDS, &more, made_record[0], 0, made_record[1],
                        made_record[2]) == QR_DONE;
    }
    return cast;
}

/* A watcher beside node 0: both get the same block and votes, and the watcher node 0's votes among them. */
static void show_watching(uint64_t *record, uint64_t *outbox)
{
    const uint64_t stakes[3] = {4, 3, 3};
    static uint64_t watcher[QR_RECORD_WORDS(3)];
    uint64_t list[QR_LINE_WORDS];
    uint8_t proof[QR_PROOF_BYTES];
    size_t words = QR_RECORD_WORDS(3), made, cast, lines, written;

    qr_start(record, words, stakes, 3, 0, 1);
    uint64_t number = qr_watch(watcher, words, stakes, 3, 1);
    printf("watcher: %" PRIu64 "\n", number);
    number = qr_block(watcher, words, outbox, QR_OUTBOX_WORDS, &made, 1, 7, 0, 1);
    show_records("watched block", number, outbox, made);
    qr_block(record, words, outbox, QR_OUTBOX_WORDS, &made, 1, 7, 0, 1);
    cast = follow(watcher, outbox, made);
    for (size_t node = 1; node < 3; node++) {
        qr_vote(record, words, outbox, QR_OUTBOX_WORDS, &made, QR_VOTE_NOTAR, node, 1, 7);
        cast += follow(watcher, outbox, made);
        number = qr_vote(watcher, words, outbox, QR_OUTBOX_WORDS, &made, QR_VOTE_NOTAR, node, 1, 7);
        show_records("watched vote", number, outbox, made);
    }
    number = qr_timeout(watcher, words, outbox, QR_OUTBOX_WORDS, &made, 1);
    printf("votes of node 0: %zu; a timeout: %" PRIu64, cast, number);
    number = qr_differ(record, words, watcher, words, list, QR_LINE_WORDS, &lines);
    printf("; beside node 0: %" PRIu64 ", %zu lines", number, lines);
    number = qr_write_proof(watcher, words, proof, sizeof proof, &written, 1, 7);
    printf("; its proof: %" PRIu64 ", %zu bytes\n", number, written);
}

/* The first bytes of a packet, with their number. */
static void show_packet(const char *what, uint64_t number, const uint8_t *packet, size_t written)
{
    printf("ring of 100: %s: %" PRIu64 ", %zu bytes:", what, number, written);
    for (size_t i = 0; i < written && i < 16; i++)
        printf(" %02X", packet[i]);
    printf(written > 16 ? " ..\n" : "\n");
}

enum { LARGE = 100 };
static uint64_t large_stakes[LARGE], large_record[QR_RECORD_WORDS(LARGE)];

/* Votes of one kind by nodes 1 to last in slot 1; answers how many were refused. */
static size_t give_votes(uint64_t *outbox, size_t last, uint64_t kind, uint64_t block)
{
    size_t made, refused = 0;
    for (size_t node = 1; node <= last; node++)
        refused += qr_vote(large_record, QR_RECORD_WORDS(LARGE), outbox, QR_OUTBOX_WORDS, &made, kind, node, 1, block) != QR_DONE;
    return refused;
}

/* A certificate of the ring: its kind is one of 11 to 15 and its buffer has 768 bytes. */
static void show_large_certificate(void)
{
    uint8_t packet[QR_LARGE_CERTIFICATE_BYTES];
    uint64_t values[5], missing;
    size_t written;
    const uint64_t notar = QR_LARGE_KINDS + QR_CERTIFICATE_NOTAR;
    uint64_t number = qr_write_certificate(large_record, QR_RECORD_WORDS(LARGE), packet, sizeof packet - 1, &written, notar, 1, 7);
    show_packet("kind 12 into 767 bytes", number, packet, written);
    number = qr_write_certificate(large_record, QR_RECORD_WORDS(LARGE), packet, sizeof packet, &written, QR_CERTIFICATE_NOTAR,
                                  1, 7);
    show_packet("kind 2", number, packet, written);
    number = qr_write_certificate(large_record, QR_RECORD_WORDS(LARGE), packet, sizeof packet, &written, notar, 1, 7);
    show_packet("kind 12", number, packet, written);
    number = qr_check_certificate(large_stakes, LARGE, packet, written, values, &missing);
    show_check("ring of 100: kind 12 checked", number, values, missing);
    number = qr_check_certificate(large_stakes, QR_MOST_SMALL, packet, written, values, &missing);
    show_check("ring of 100: kind 12 checked with 64 stakes", number, values, missing);
}

/* A finality proof of the ring, in a buffer of 1,536 bytes. */
static void show_large_proof(const char *what)
{
    uint8_t packet[QR_LARGE_PROOF_BYTES];
    uint64_t values[5], missing;
    size_t written;
    uint64_t number = qr_write_proof(large_record, QR_RECORD_WORDS(LARGE), packet, sizeof packet - 1, &written, 1, 7);
    printf("ring of 100: proof into 1535 bytes: %" PRIu64 "\n", number);
    number = qr_write_proof(large_record, QR_RECORD_WORDS(LARGE), packet, sizeof packet, &written, 1, 7);
    show_packet(what, number, packet, written);
    number = qr_check_proof(large_stakes, LARGE, packet, written, values, &missing);
    show_check("ring of 100: that proof checked", number, values, missing);
}

/* 100 nodes of stake 1: 60 notar votes make kind 12, with 60 final votes the block is final; 80 notar votes make kind 11. */
static void show_large(uint64_t *outbox)
{
    const uint8_t old_kind[5] = {0x02, 0x01, 0x07, 0x01, 0x00};
    uint64_t values[5], missing;
    for (size_t i = 0; i < LARGE; i++)
        large_stakes[i] = 1;
    uint64_t number = qr_start(large_record, QR_RECORD_WORDS(LARGE), large_stakes, LARGE, 0, 1);
    size_t refused = give_votes(outbox, 60, QR_VOTE_NOTAR, 7) + give_votes(outbox, 60, QR_VOTE_FINAL, 0);
    printf("ring of 100: started: %" PRIu64 ", 120 votes, %zu refused\n", number, refused);
    show_large_certificate();
    show_large_proof("proof of kinds 12 and 15");
    printf("ring of 100: notar votes again and 20 more: %zu refused\n", give_votes(outbox, 80, QR_VOTE_NOTAR, 7));
    show_large_proof("proof of kind 11");
    number = qr_check_certificate(large_stakes, LARGE, old_kind, sizeof old_kind, values, &missing);
    show_check("ring of 100: kind 2 checked", number, values, missing);
}

/* Two members of a ring of three whose votes differ; a list that is too short, other stakes, and words that are no record. */
static void show_differences(uint64_t *record, uint64_t *outbox)
{
    const uint64_t stakes[3] = {4, 3, 3}, other_stakes[3] = {4, 3, 2};
    static uint64_t other[QR_RECORD_WORDS(3)];
    uint64_t list[3 * QR_LINE_WORDS] = {0};
    size_t words = QR_RECORD_WORDS(3), made, lines;

    qr_start(record, words, stakes, 3, 0, 1);
    qr_start(other, words, stakes, 3, 1, 1);
    qr_vote(record, words, outbox, QR_OUTBOX_WORDS, &made, QR_VOTE_NOTAR, 2, 1, 9);
    qr_vote(record, words, outbox, QR_OUTBOX_WORDS, &made, QR_VOTE_FINAL, 2, 1, 0);
    qr_vote(other, words, outbox, QR_OUTBOX_WORDS, &made, QR_VOTE_NOTAR, 2, 1, 8);
    uint64_t number = qr_differ(record, words, other, words, list, 2 * QR_LINE_WORDS, &lines);
    printf("a list of two lines: %" PRIu64 ", %zu needed\n", number, lines);
    number = qr_differ(record, words, other, words, list, 3 * QR_LINE_WORDS, &lines);
    printf("a list of three: %" PRIu64 ", %zu lines:", number, lines);
    for (size_t i = 0; i < lines; i++) {
        const uint64_t *line = list + i * QR_LINE_WORDS;
        printf(" %" PRIu64 ",%" PRIu64 ",%" PRIu64 ",%" PRIu64 ",%" PRIu64, line[0], line[1], line[2], line[3], line[4]);
    }
    printf("\n");
    qr_start(other, words, other_stakes, 3, 1, 1);
    number = qr_differ(record, words, other, words, list, 3 * QR_LINE_WORDS, &lines);
    printf("other stakes: %" PRIu64 ", %zu line of side %" PRIu64, number, lines, list[4]);
    number = qr_differ(record, words, other, words - 1, list, 3 * QR_LINE_WORDS, &lines);
    printf("; no record: %" PRIu64 ", side %zu\n", number, lines);
}

/* A record that the library left, and its words under another member's number, whose votes do not stand on them. */
static void show_standing(uint64_t *record, uint64_t *outbox)
{
    const uint64_t stakes[3] = {4, 3, 3};
    uint64_t list[2 * QR_LINE_WORDS] = {0};
    size_t words = QR_RECORD_WORDS(3), made, lines;

    qr_start(record, words, stakes, 3, 0, 1);
    qr_vote(record, words, outbox, QR_OUTBOX_WORDS, &made, QR_VOTE_NOTAR, 2, 1, 9);
    qr_vote(record, words, outbox, QR_OUTBOX_WORDS, &made, QR_VOTE_FINAL, 2, 1, 0);
    uint64_t number = qr_stands(record, words, list, 0, &lines);
    printf("own votes that do not stand: %" PRIu64 ", %zu lines", number, lines);
    record[2] = 2;
    number = qr_stands(record, words, list, QR_LINE_WORDS, &lines);
    printf("; under number 2: %" PRIu64 ", %zu needed", number, lines);
    number = qr_stands(record, words, list, 2 * QR_LINE_WORDS, &lines);
    printf(", %" PRIu64 ", %zu lines:", number, lines);
    for (size_t i = 0; i < lines; i++) {
        const uint64_t *line = list + i * QR_LINE_WORDS;
        printf(" %" PRIu64 ",%" PRIu64 ",%" PRIu64 ",%" PRIu64 ",%" PRIu64, line[0], line[1], line[2], line[3], line[4]);
    }
    number = qr_stands(record, words - 1, list, QR_LINE_WORDS, &lines);
    printf("; no record: %" PRIu64 ", %zu\n", number, lines);
}

/* What a member counts in another's name and that one's record lacks: two votes, then a proof. */
static void show_vouching(uint64_t *record, uint64_t *outbox)
{
    const uint64_t stakes[3] = {4, 3, 3}, other_stakes[3] = {4, 3, 2};
    const uint8_t proof[10] = {0x02, 0x01, 0x09, 0x05, 0x00, 0x05, 0x01, 0x00, 0x05, 0x00};
    static uint64_t other[QR_RECORD_WORDS(3)];
    uint64_t list[2 * QR_LINE_WORDS] = {0};
    size_t words = QR_RECORD_WORDS(3), made, lines;

    qr_start(record, words, stakes, 3, 0, 1);
    qr_start(other, words, stakes, 3, 2, 1);
    qr_vote(record, words, outbox, QR_OUTBOX_WORDS, &made, QR_VOTE_NOTAR, 2, 1, 9);
    qr_vote(record, words, outbox, QR_OUTBOX_WORDS, &made, QR_VOTE_FINAL, 2, 1, 0);
    uint64_t number = qr_vouched(record, words, other, words, list, QR_LINE_WORDS, &lines);
    printf("votes that the other lacks: %" PRIu64 ", %zu needed", number, lines);
    number = qr_vouched(record, words, other, words, list, 2 * QR_LINE_WORDS, &lines);
    printf(", %" PRIu64 ", %zu lines:", number, lines);
    for (size_t i = 0; i < lines; i++) {
        const uint64_t *line = list + i * QR_LINE_WORDS;
        printf(" %" PRIu64 ",%" PRIu64 ",%" PRIu64 ",%" PRIu64 ",%" PRIu64, line[0], line[1], line[2], line[3], line[4]);
    }
    number = qr_vouched_packet(other, words, proof, sizeof proof, list, 2 * QR_LINE_WORDS, &lines);
    printf("; of a proof: %" PRIu64 ", %zu lines of kinds %" PRIu64 " and %" PRIu64, number, lines, list[4], list[9]);
    number = qr_vouched_packet(other, words, proof, sizeof proof - 1, list, 2 * QR_LINE_WORDS, &lines);
    printf("; cut: %" PRIu64 ", %zu", number, lines);
    qr_start(other, words, other_stakes, 3, 2, 1);
    number = qr_vouched(record, words, other, words, list, 2 * QR_LINE_WORDS, &lines);
    printf("; other stakes: %" PRIu64 ", %zu", number, lines);
    number = qr_vouched(record, words, other, words - 1, list, 2 * QR_LINE_WORDS, &lines);
    printf("; no record: %" PRIu64 ", side %zu\n", number, lines);
}

/* One number of a slot with two parents: block 7 of slot 2 is announced to two members upon 5 and upon 6. */
static void show_parents(uint64_t *record, uint64_t *outbox)
{
    const uint64_t stakes[3] = {4, 3, 3}, other_stakes[3] = {4, 3, 2};
    static uint64_t other[QR_RECORD_WORDS(3)];
    uint64_t list[2 * QR_LINE_WORDS] = {0};
    size_t words = QR_RECORD_WORDS(3), made, lines;

    qr_start(record, words, stakes, 3, 0, 1);
    qr_start(other, words, stakes, 3, 2, 1);
    qr_block(record, words, outbox, QR_OUTBOX_WORDS, &made, 2, 7, 1, 5);
    qr_block(other, words, outbox, QR_OUTBOX_WORDS, &made, 2, 7, 1, 6);
    uint64_t number = qr_same_parents(record, words, other, words, list, QR_LINE_WORDS, &lines);
    printf("blocks with two parents: %" PRIu64 ", %zu needed", number, lines);
    number = qr_same_parents(record, words, other, words, list, 2 * QR_LINE_WORDS, &lines);
    printf(", %" PRIu64 ", %zu lines:", number, lines);
    for (size_t i = 0; i < lines; i++) {
        const uint64_t *line = list + i * QR_LINE_WORDS;
        printf(" %" PRIu64 ",%" PRIu64 ",%" PRIu64 ",%" PRIu64 ",%" PRIu64, line[0], line[1], line[2], line[3], line[4]);
    }
    number = qr_same_parents(record, words, record, words, list, 0, &lines);
    printf("; with itself: %" PRIu64 ", %zu", number, lines);
    qr_start(other, words, other_stakes, 3, 2, 1);
    number = qr_same_parents(record, words, other, words, list, 0, &lines);
    printf("; other stakes: %" PRIu64 ", %zu", number, lines);
    number = qr_same_parents(record, words - 1, other, words, list, 0, &lines);
    printf("; no record: %" PRIu64 ", side %zu\n", number, lines);
}

int main(void)
{
    const uint64_t stakes[1] = {5};
    const uint8_t long_proof[10] = {0x02, 0x01, 0x07, 0x01, 0x00, 0x05, 0x01, 0x00, 0x01, 0x00};
    const uint8_t light_proof[10] = {0x02, 0x01, 0x07, 0x01, 0x00, 0x05, 0x01, 0x00, 0x00, 0x00};
    uint64_t values[5], missing;
    static uint64_t record[QR_RECORD_WORDS(3)], outbox[QR_OUTBOX_WORDS];
    uint8_t packet[QR_PROOF_BYTES];
    size_t made, written;

    if (qr_version() != QR_VERSION || qr_record_words(QR_MOST_SMALL) != QR_RECORD_WORDS(QR_MOST_SMALL)
        || qr_record_words(QR_MOST_NODES) != QR_RECORD_WORDS(QR_MOST_NODES) || qr_outbox_words() != QR_OUTBOX_WORDS
        || qr_pieces_words() != QR_PIECES_WORDS || qr_pieces_bytes() != QR_PIECES_BYTES) {
        fprintf(stderr, "the library is not of this header\n");
        return 1;
    }
    if (qr_start(record, QR_RECORD_WORDS(1), stakes, 1, 0, 1) != QR_DONE)
        return 1;
    uint64_t number = qr_block(record, QR_RECORD_WORDS(1), outbox, QR_OUTBOX_WORDS, &made, 1, 7, 0, 1);
    show_records("B1", number, outbox, made);
    show_readers(record);
    show_kept(record);
    show_weights(record);
    show_may(record);
    show_split(record);
    number = qr_look(record, QR_RECORD_WORDS(2), outbox, QR_OUTBOX_WORDS, &made);
    printf("a record one place too long: %" PRIu64, number);
    number = qr_look(record, QR_RECORD_WORDS(1), outbox, QR_OUTBOX_WORDS - 1, &made);
    printf("; an outbox one word short: %" PRIu64 "\n", number);

    number = qr_write_proof(record, QR_RECORD_WORDS(1), packet, sizeof packet, &written, 1, 7);
    printf("B9: %" PRIu64 ", proof of %zu bytes:", number, written);
    for (size_t i = 0; i < written; i++)
        printf(" %02X", packet[i]);
    printf("\n");
    number = qr_check_proof(stakes, 1, packet, written, values, &missing);
    show_check("B9: that proof", number, values, missing);
    number = qr_check_proof(stakes, 1, long_proof, sizeof long_proof, values, &missing);
    show_check("B9: kinds 2 and 5", number, values, missing);
    number = qr_check_proof(stakes, 1, light_proof, sizeof light_proof, values, &missing);
    show_check("B9: kind 5 without signers", number, values, missing);
    show_message();
    show_tray(record, outbox);
    show_card(record);
    show_blocks(record, outbox);
    show_taking(record, outbox);
    show_watching(record, outbox);
    show_large(outbox);
    show_differences(record, outbox);
    show_standing(record, outbox);
    show_vouching(record, outbox);
    show_parents(record, outbox);
    show_pieces(stakes, 1, long_proof, sizeof long_proof);
    show_text(QR_DONE);
    show_text(QR_BAD_SLOT);
    show_text(QR_NOT_HELD);
    show_text(QR_NOT_HELD + 1);
    return 0;
}
