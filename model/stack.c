/* What stack each call of the C face needs: every call is run on ever smaller stacks until it no longer ends.
   stack NODES RECORD..: the RECORDs are files with a record's words (model record), each with its votes beside it (RECORD.votes).
   Prints a line "bytes function" for each function, the most over all records and inputs that are tried. */
#define _GNU_SOURCE
#include <setjmp.h>
#include <signal.h>
#include <stdint.h>
#include <stdio.h>
#include <stdlib.h>
#include <string.h>
#include <sys/mman.h>
#include <ucontext.h>

#include "quointrowel.h"

/* Below the stack nothing may be touched; a frame that leaps over so much there is not. */
enum { ROOM = 1 << 18, FORBIDDEN = 1 << 22, STEP = 16, LARGE_MASKS = 32, BLOCK = 100, FALLBACK = 20 };

typedef uint64_t words_of_a_record[QR_RECORD_WORDS(QR_MOST_NODES)];
static words_of_a_record record, kept, other;
static uint64_t stakes[QR_MOST_NODES], outbox[QR_OUTBOX_WORDS], votes[4 * 500], answers[500], *list;
static uint64_t state[QR_PIECES_WORDS], values[QR_BLOCKS_WORDS], missing;
static uint8_t front[QR_PIECES_BYTES], buffer[QR_LARGE_PROOF_BYTES], packet[2 * QR_LARGE_CERTIFICATE_BYTES];
static size_t nodes, words, vote_count, list_words, packet_bytes, made, written;
static uint64_t kind, slot, number;

static char *area;
static ucontext_t caller, callee;
static sigjmp_buf over;
static void (*call)(void);

static void start(void) { qr_start(record, words, stakes, nodes, 0, 1); }
static void watch(void) { qr_watch(record, words, stakes, nodes, 1); }
static void vote(void) { qr_vote(record, words, outbox, QR_OUTBOX_WORDS, &made, votes[0], votes[1], votes[2], votes[3]); }
static void block(void) { qr_block(record, words, outbox, QR_OUTBOX_WORDS, &made, slot, number, slot - 1, slot == 1 ? 1 : BLOCK + slot - 1); }
static void timeout(void) { qr_timeout(record, words, outbox, QR_OUTBOX_WORDS, &made, slot); }
static void look(void) { qr_look(record, words, outbox, QR_OUTBOX_WORDS, &made); }
static void take(void) { qr_take(record, words, outbox, QR_OUTBOX_WORDS, &made, packet, packet_bytes); }
static void tray(void) { qr_tray(record, words, outbox, QR_OUTBOX_WORDS, &made, votes, 4 * vote_count, answers, vote_count); }
static void write_certificate(void) { qr_write_certificate(record, words, buffer, sizeof buffer, &written, kind, slot, number); }
static void write_proof(void) { qr_write_proof(record, words, buffer, sizeof buffer, &written, slot, number); }
static void card(void) { qr_card(record, words, slot, values); }
static void final_block(void) { qr_final_block(record, words, slot, values); }
static void is_armed(void) { qr_is_armed(record, words, slot, values); }
static void kept_votes(void) { qr_kept_votes(record, words, slot, nodes - 1, values); }
static void may_announce(void) { qr_may_announce(record, words, slot, number, slot - 1, slot == 1 ? 1 : BLOCK + slot - 1, values); }
static void split_proof(void) { qr_split_proof(record, words, packet, packet_bytes, &made); }
static void kept_blocks(void) { qr_kept_blocks(record, words, slot, values); }
static void slot_marks(void) { qr_slot_marks(record, words, slot, values); }
static void head(void) { qr_head(record, words, values); }
static void check_certificate(void) { qr_check_certificate(stakes, nodes, packet, packet_bytes, values, &missing); }
static void check_proof(void) { qr_check_proof(stakes, nodes, packet, packet_bytes, values, &missing); }
static void piece(void) { qr_piece(state, QR_PIECES_WORDS, front, QR_PIECES_BYTES, stakes, nodes, packet, packet_bytes); }
static void end(void) { qr_end(state, QR_PIECES_WORDS, front, QR_PIECES_BYTES, values, &missing); }
static void read_vote(void) { qr_read_vote(nodes, packet, packet_bytes, values); }
static void write_vote(void) { qr_write_vote(buffer, QR_VOTE_BYTES, &written, nodes, 1, nodes - 1, 16, UINT64_MAX); }
static void differ(void) { qr_differ(record, words, other, words, list, list_words, &made); }
static void stands(void) { qr_stands(record, words, list, list_words, &made); }
static void vouched(void) { qr_vouched(record, words, other, words, list, list_words, &made); }
static void vouched_packet(void) { qr_vouched_packet(record, words, packet, packet_bytes, list, list_words, &made); }
static void same_parents(void) { qr_same_parents(record, words, other, words, list, list_words, &made); }
static void refusal_text(void) { qr_refusal_text(buffer, sizeof buffer, &written, number); }
static void version(void) { qr_version(); }
static void sizes(void) { qr_record_words(nodes); qr_outbox_words(); qr_pieces_words(); qr_pieces_bytes(); }
static void nothing(void) {}

static struct function {
    const char *name;
    void (*call)(void);
    size_t bytes;
} functions[] = {
    {"qr_start", start, 0}, {"qr_watch", watch, 0}, {"qr_vote", vote, 0}, {"qr_block", block, 0}, {"qr_timeout", timeout, 0},
    {"qr_look", look, 0}, {"qr_take", take, 0}, {"qr_tray", tray, 0}, {"qr_write_certificate", write_certificate, 0},
    {"qr_write_proof", write_proof, 0}, {"qr_card", card, 0}, {"qr_final_block", final_block, 0}, {"qr_is_armed", is_armed, 0},
    {"qr_may_announce", may_announce, 0}, {"qr_split_proof", split_proof, 0}, {"qr_kept_votes", kept_votes, 0}, {"qr_kept_blocks", kept_blocks, 0}, {"qr_slot_marks", slot_marks, 0}, {"qr_head", head, 0},
    {"qr_check_certificate", check_certificate, 0}, {"qr_check_proof", check_proof, 0},
    {"qr_piece", piece, 0}, {"qr_end", end, 0}, {"qr_read_vote", read_vote, 0}, {"qr_write_vote", write_vote, 0},
    {"qr_differ", differ, 0}, {"qr_stands", stands, 0}, {"qr_vouched", vouched, 0}, {"qr_vouched_packet", vouched_packet, 0},
    {"qr_same_parents", same_parents, 0}, {"qr_refusal_text", refusal_text, 0}, {"qr_version", version, 0}, {"qr_record_words and the other sizes", sizes, 0},
};
enum { FUNCTIONS = sizeof functions / sizeof *functions };

static void touched(int sign)
{
    (void)sign;
    siglongjmp(over, 1);
}

/* The call on a stack of so many bytes, from the state that kept and front have; whether it ended. */
static int ends_on(size_t bytes)
{
    static uint64_t first_state[QR_PIECES_WORDS];
    static uint8_t first_front[QR_PIECES_BYTES];
    memcpy(record, kept, words * sizeof *record);
    memcpy(first_state, state, sizeof state);
    memcpy(first_front, front, sizeof front);
    int has_ended = 0;
    if (!sigsetjmp(over, 1)) {
        getcontext(&callee);
        callee.uc_stack.ss_sp = area + FORBIDDEN;
        callee.uc_stack.ss_size = bytes;
        callee.uc_link = &caller;
        makecontext(&callee, call, 0);
        swapcontext(&caller, &callee);
        has_ended = 1;
    }
    memcpy(state, first_state, sizeof state);
    memcpy(front, first_front, sizeof front);
    return has_ended;
}

/* The least stack on which the call ends, where it is more than so many bytes; else those. */
static size_t needs(void (*what)(void), size_t least)
{
    call = what;
    size_t low = least / STEP, high = ROOM / STEP;
    if (ends_on(low * STEP))
        return least;
    if (!ends_on(high * STEP)) {
        fprintf(stderr, "stack: a call needs more than %d bytes\n", ROOM);
        exit(1);
    }
    while (high - low > 1) {
        size_t middle = (low + high) / 2;
        if (ends_on(middle * STEP))
            high = middle;
        else
            low = middle;
    }
    return high * STEP;
}

static void try_function(void (*what)(void))
{
    for (size_t i = 0; i < FUNCTIONS; i++)
        if (functions[i].call == what)
            functions[i].bytes = needs(what, functions[i].bytes);
}

static void put_number(uint64_t value)
{
    for (; value > 0x7F; value >>= 7)
        packet[packet_bytes++] = value | 0x80;
    packet[packet_bytes++] = value;
}

/* A certificate behind what the packet has, signed by the first nodes; of kinds 3 and 4 the odd ones in mask B. */
static void sign(uint64_t meaning, uint64_t of_slot, uint64_t of_block, size_t signers)
{
    int is_large = nodes > QR_MOST_SMALL;
    size_t masks = is_large ? LARGE_MASKS : 1;
    put_number(meaning + (is_large ? QR_LARGE_KINDS : 0));
    put_number(of_slot);
    put_number(of_block);
    for (size_t i = 0; i < 2 * masks; i++) {
        size_t left = signers <= 64 * (i % masks) ? 0 : signers - 64 * (i % masks);
        uint64_t mask = left == 0 ? 0 : left >= 64 ? UINT64_MAX : UINT64_MAX >> (64 - left);
        int has_second = meaning == 3 || meaning == 4;
        put_number(mask & (has_second ? (i < masks ? 0x5555555555555555 : 0xAAAAAAAAAAAAAAAA) : i < masks ? UINT64_MAX : 0));
    }
}

/* Certificates of every kind, whole and too light, and proofs of both forms. */
static void try_packets(void (*what)(void), int of_proofs)
{
    for (uint64_t meaning = 1; meaning <= 5; meaning++)
        for (int form = 0; form < 4; form++) {
            packet_bytes = 0;
            sign(meaning, 16, meaning > 3 ? 0 : UINT64_MAX, form == 1 ? nodes / 2 : nodes);
            if (of_proofs || form == 3)
                sign(5, form == 2 ? 15 : 16, 0, form == 3 ? nodes / 2 : nodes);
            try_function(what);
        }
}

static void try_record(void)
{
    static const uint64_t blocks[] = {0, 1, BLOCK, BLOCK + 16, FALLBACK, 7, UINT64_MAX};
    try_function(vote);
    try_function(look);
    try_function(tray);
    try_packets(take, 0);
    for (slot = 1; slot <= QR_LAST_SLOT; slot += 3) {
        try_function(timeout);
        try_function(card);
        try_function(final_block);
        try_function(is_armed);
        try_function(kept_votes);
        try_function(kept_blocks);
        try_function(slot_marks);
        try_function(head);
        for (size_t i = 0; i < sizeof blocks / sizeof *blocks; i++) {
            number = blocks[i];
            try_function(block);
            try_function(write_proof);
            for (kind = 1; kind <= 5; kind++) {
                kind += nodes > QR_MOST_SMALL ? QR_LARGE_KINDS : 0;
                try_function(write_certificate);
                kind -= nodes > QR_MOST_SMALL ? QR_LARGE_KINDS : 0;
            }
        }
    }
    try_function(stands);
    try_packets(vouched_packet, 0);
    try_packets(vouched_packet, 1);
    try_function(differ);
    try_function(vouched);
    try_function(same_parents);
    memcpy(other, record, words * sizeof *record);
    try_function(differ);
    try_function(vouched);
}

static void try_rest(void)
{
    try_function(start);
    try_function(watch);
    try_function(version);
    try_function(sizes);
    try_packets(check_certificate, 0);
    try_packets(check_proof, 1);
    for (int form = 0; form < 2; form++) {
        packet_bytes = 0;
        sign(form == 0 ? 1 : 2, 16, 7, nodes);
        if (form == 1)
            sign(5, 16, 0, nodes);
        memset(state, 0, sizeof state);
        memset(front, 0, sizeof front);
        try_function(piece);
        piece();
        try_function(piece);
        try_function(end);
    }
    packet_bytes = 0;
    put_number(1);
    put_number(nodes - 1);
    put_number(16);
    put_number(UINT64_MAX);
    try_function(read_vote);
    try_function(write_vote);
    for (number = 0; number < 20; number++)
        try_function(refusal_text);
}

static size_t read_words(const char *name, const char *ending, uint64_t *place, size_t most)
{
    char path[4096];
    FILE *file = snprintf(path, sizeof path, "%s%s", name, ending) < (int)sizeof path ? fopen(path, "rb") : NULL;
    size_t count = file ? fread(place, sizeof *place, most, file) : 0;
    if (file)
        fclose(file);
    return count;
}

int main(int count, char **word)
{
    static char signal_stack[1 << 16];
    nodes = count > 2 ? strtoul(word[1], NULL, 10) : 0;
    if (nodes < 2 || nodes > QR_MOST_NODES)
        return 1;
    words = qr_record_words(nodes);
    for (size_t i = 0; i < nodes; i++)
        stakes[i] = 1;
    list_words = QR_LINE_WORDS * 16 * QR_LAST_SLOT * nodes;
    list = malloc(list_words * sizeof *list);
    area = mmap(NULL, FORBIDDEN + ROOM, PROT_READ | PROT_WRITE, MAP_PRIVATE | MAP_ANONYMOUS, -1, 0);
    if (!list || area == MAP_FAILED || mprotect(area, FORBIDDEN, PROT_NONE))
        return 1;
    const stack_t beside = {.ss_sp = signal_stack, .ss_size = sizeof signal_stack};
    const struct sigaction action = {.sa_handler = touched, .sa_flags = SA_ONSTACK};
    if (sigaltstack(&beside, NULL) || sigaction(SIGSEGV, &action, NULL) || sigaction(SIGBUS, &action, NULL))
        return 1;
    size_t without = needs(nothing, 0);
    for (int i = 2; i < count; i++) {
        vote_count = read_words(word[i], ".votes", votes, sizeof votes / sizeof *votes) / 4;
        if (read_words(word[i], "", kept, words) != words || vote_count == 0)
            return 1;
        try_record();
    }
    try_rest();
    for (size_t i = 0; i < FUNCTIONS; i++)
        printf("%6zu %s\n", functions[i].bytes - without, functions[i].name);
    return 0;
}
