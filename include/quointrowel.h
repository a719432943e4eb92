/*
 * Quointrowel: a ledger node's pool and voter, its certificate writer and its checker.
 *
 * Memory. The library keeps nothing between calls, and all memory but the stack of the call is lent by the host for the time of one
 * call. A slice is two arguments, a pointer to its first element and its length in elements; an empty slice may have any pointer that
 * is not used. Pointers are not null otherwise and are aligned for their type. What a call may change (every pointer without const)
 * must not overlap anything else that is lent to the same call. Calls on different records may run at the same time.
 *
 * Stack. Bytes that a call needs, arguments and return address among them, measured on x86-64 with the worst records that are known
 * (docs/PERFORMANCE.md, Stack): the most that an older kit and today's took. A host gives some more, 32 KB say. 16 KB of it are one
 * list, by which the card of a slot is recounted.
 *     qr_take, qr_vouched_packet                            19,680
 *     qr_block, qr_vote, qr_timeout, qr_look, qr_tray       19,264
 *     qr_write_certificate, qr_write_proof, qr_differ       19,024
 *     qr_vouched, qr_same_parents, qr_stands                18,992
 *     qr_card, qr_final_block, qr_kept_votes, qr_is_armed   18,928
 *     qr_kept_blocks, qr_slot_marks, qr_head                18,928
 *     qr_refusal_text                                        2,048
 *     qr_check_certificate, qr_check_proof, qr_end           1,968
 *     qr_read_vote                                             304
 *     qr_start, qr_watch, qr_write_vote, qr_piece, sizes       112
 * At 64 nodes those on a record need 700 less. Votes are sorted by turns of some 100 bytes each, at most 22, of which the measured
 * ones took some 12: so up to 1,000 bytes more are possible.
 * Not measured are qr_may_announce, qr_block_weights and qr_kept_certificates, which ask 17 as qr_card does, and qr_split_proof, which
 * asks it and checks a proof; qr_same_parents was before votes were sorted so.
 *
 * Node. A node is its record: qr_record_words(stake_count) words, owned by the host, which may copy it, keep it and lend
 * it again, always with that length. qr_start makes lent words a fresh node, qr_watch a fresh watcher, a node that never
 * votes. Words that no call of this library left are looked through at every call and refused with QR_BAD_RECORD where they
 * are no record; a record that this library left is never refused so. qr_start and qr_watch alone do not look at the words: they ask
 * their length and lay a fresh node over whatever stood there, a living one too.
 *
 * Restart. A host stores its record after a call that made something, and sends only what a stored record has, certificates and
 * proofs too; after its death it goes on from the last record that it stored, and sends the own votes that qr_kept_votes reads off it
 * again: they are exactly those that its outboxes told. In the other order, or from an older record, as out of a backup, it may vote
 * twice, and counts as one that lies. A fresh start in the same sixteen slots is such an older record.
 *
 * Signatures. They are the host's, and a vote's signature must bind the ring, its stake table and the sixteen slots (which of them in
 * the ledger's life: their epoch) beside kind, node, slot and block. Votes and certificates for skip, skip-fallback and final name no
 * block: without these they would be good in every ring and in every sixteen slots. The library sees none of it; so it is with
 * certificates and proofs, whose signers' signatures the host verifies.
 *
 * The next sixteen slots. A fresh record, its genesis the number of a final block of these, with the table that holds from there on.
 * Which final block it is the members agree on, by its finality proof; all must take the same one, or they refuse each other's first
 * blocks with QR_BAD_PARENT. Within each sixteen slots all is promised that docs/PROMISES.md says, by their own votes alone; the
 * earlier record still writes its certificates and proofs. Across the line nothing is: no vote, certificate or armed window carries
 * over, and a block above the one that was taken, which becomes final later, is no ancestor of the new ones. So take a block only
 * once no slot above it can have a final one: the last slot's, or one above which every slot holds a skip certificate. Where a slot
 * above it stays without both, no promise says which block to take.
 *
 * Versions. A stored record is for the version that wrote it (QR_VERSION). Another version's words are not to be lent: they may be
 * refused with QR_BAD_RECORD or misread. Packets carry over: certificates, proofs and vote messages. A member finishes its 16 slots
 * with the version that it began them with, since a fresh node knows nothing of its own earlier votes and could vote against them.
 *
 * Answers. Every operation answers a number: 0 where it is done, else why not (enum qr_number). A refusal changes none
 * of the record, the outbox and the buffers, and puts zeros into the places for the values beside it; qr_differ, qr_stands and the other
 * lists say what stands there beside theirs, the checks what *missing gets beside 15, and qr_end what it does to its state. A number that is out of
 * range, a slot of 99 or a kind of 7, is not a fault of the host: it has its own refusal.
 *
 * The archive is libquointrowel.a, made by tools/archive (`rt lib` in crates/quointrowel_c), for x86-64. Of the host it wants memcpy
 * and memset, as the C library has them, and nothing else.
 */
#ifndef QUOINTROWEL_H
#define QUOINTROWEL_H

#include <stddef.h>
#include <stdint.h>

#ifdef __cplusplus
extern "C" {
#endif

enum qr_number {
    QR_DONE = 0,
    QR_BAD_SIZES = 1,     /* stake table, own number or genesis out of range; stake tables of two records that differ */
    QR_BAD_NODE = 2,      /* node number not in the table */
    QR_BAD_SLOT = 3,      /* slot not 1 to 16 */
    QR_BAD_KIND = 4,      /* kind not 1 to 5; of a certificate with a large table, not 11 to 15; timeout for a watcher */
    QR_BAD_BLOCK = 5,     /* block 0 where one is needed, or not 0 where none is; a block's parent number 0 */
    QR_OWN_NAME = 6,      /* vote in the own node's name from outside */
    QR_ALREADY_KEPT = 7,  /* that very vote, block with parent, or timeout is kept; a certificate of that kind, slot and block is */
    QR_OTHER_STANDS = 8,  /* another stands in its place; a fifth block of a slot, or a kept block with another parent; a tenth
                             certificate of kind 3 */
    QR_NO_ROOM = 9,       /* outbox below 480 words; buffer below its bytes (enum qr_size); too few places for a tray's answers;
                             a list too short for all lines of a comparison */
    QR_NOT_ARMED = 10,    /* timeout for a window that is not armed */
    QR_BAD_PARENT = 11,   /* parent slot not below the slot, or slot 0 without genesis */
    QR_BAD_LENGTH = 12,   /* packet ends early, or bytes remain; a part of a vote ends a tray; an end with no piece before it */
    QR_BAD_NUMBER = 13,   /* number not shortest, or above 64 bits */
    QR_BAD_SIGNERS = 14,  /* signer beyond the table, in both masks, or B where 0 is due */
    QR_TOO_LIGHT = 15,    /* weight below the threshold; a check says how much is missing */
    QR_NOT_A_PROOF = 16,  /* not one of the two proof forms */
    QR_BAD_RECORD = 17,   /* the words are no node's record; the state is not one of a proof in pieces */
    QR_NOT_HELD = 18      /* certificate or proof asked for is not held */
};

/* Kinds of votes. Kinds 3 to 5 carry block 0. */
enum qr_vote_kind {
    QR_VOTE_NOTAR = 1,
    QR_VOTE_NOTAR_FALLBACK = 2,
    QR_VOTE_SKIP = 3,
    QR_VOTE_SKIP_FALLBACK = 4,
    QR_VOTE_FINAL = 5
};

/*
 * Kinds of certificates: who counts, and which part of the stake they reach. Kinds 4 and 5 carry block 0. The number of nodes
 * alone tells the family of a ring's certificates. Up to QR_MOST_SMALL nodes: these kinds, each signer mask one number. With
 * more, a large table: QR_LARGE_KINDS is added, 11 to 15 with the same meanings, and each mask is 32 numbers, lowest nodes
 * first. Either ring refuses the other's kinds with 4, writing and checking.
 */
enum qr_certificate_kind {
    QR_CERTIFICATE_FAST_FINAL = 1,     /* notar, 80 percent */
    QR_CERTIFICATE_NOTAR = 2,          /* notar, 60 percent */
    QR_CERTIFICATE_NOTAR_FALLBACK = 3, /* notar or notar-fallback, 60 percent */
    QR_CERTIFICATE_SKIP = 4,           /* skip or skip-fallback, 60 percent */
    QR_CERTIFICATE_FINAL = 5,          /* final, 60 percent */
    QR_LARGE_KINDS = 10
};

/* Kinds of records in an outbox: 1 to 5 are votes that the node has cast, with the kinds of votes. */
enum qr_record_kind {
    QR_RECORD_NOTAR = 1,
    QR_RECORD_NOTAR_FALLBACK = 2,
    QR_RECORD_SKIP = 3,
    QR_RECORD_SKIP_FALLBACK = 4,
    QR_RECORD_FINAL = 5,
    QR_RECORD_BLOCK_FINAL = 6,  /* the block is final in the slot, by certificates or as an ancestor of such a block */
    QR_RECORD_WINDOW_ARMED = 7, /* the window that the slot begins is armed; block 0 */
    QR_RECORD_CONFLICT = 8      /* the block is final in the slot too, which has another final block; once for a slot */
};

/* Sizes: what lent memory has to have, and what a ring has at most. */
enum qr_size {
    QR_OUTBOX_WORDS = 480,     /* words of an outbox, 160 records of three, or more */
    QR_CERTIFICATE_BYTES = 32, /* bytes of a buffer for a certificate, or more */
    QR_PROOF_BYTES = 64,       /* bytes of a buffer for a proof, or more */
    QR_LARGE_CERTIFICATE_BYTES = 768, /* the same with a large table */
    QR_LARGE_PROOF_BYTES = 1536,
    QR_VOTE_BYTES = 16,        /* bytes of a buffer for a vote message, or more, with any table */
    QR_TEXT_BYTES = 512,       /* bytes of a buffer for a number's text, or more */
    QR_VOTES_WORDS = 7,        /* words in which a node's stored votes in a slot are told */
    QR_BLOCKS_WORDS = 12,      /* words in which a slot's kept blocks are told, three for each of four places */
    QR_LINE_WORDS = 5,         /* words of a line in a list */
    QR_MOST_CERTIFICATES = 13, /* lines of certificates that a slot keeps, at most */
    QR_MOST_FALLEN = 96,       /* lines of own votes that do not stand, at most: six in each slot */
    QR_MOST_LACKED = 528,      /* lines of votes that a record lacks, at most: 33 in each slot */
    QR_MOST_TWICE = 512,       /* lines of blocks with two parents, at most: 32 in each slot */
    QR_PIECES_WORDS = 2050,    /* words of the state of a proof in pieces, exactly */
    QR_PIECES_BYTES = 1341,    /* and bytes of it, exactly */
    QR_MOST_SMALL = 64,        /* a table of more nodes is large: its certificates have kinds 11 to 15 */
    QR_MOST_NODES = 2048,
    QR_LAST_SLOT = 16
};

/* The version of this header, and that of the library that is linked, which a host compares with it before all else. */
#define QR_VERSION 1

uint64_t qr_version(void);

/*
 * Words of a record of a ring of so many nodes, 1 to QR_MOST_NODES, exactly: 1,371 for three nodes, 260,473 for 2,048. With a
 * large table the signers of each kept certificate take 64 words, else two.
 */
#define QR_RECORD_WORDS(nodes) (((size_t)(nodes) > QR_MOST_SMALL ? 14713 : 1011) + 120 * (size_t)(nodes))

/*
 * The same of the library that is linked, which a host compares with those of this header. qr_record_words: by the number
 * of stakes, whatever it is; above QR_MOST_NODES as many as for QR_MOST_NODES.
 */
size_t qr_record_words(size_t stake_count);

size_t qr_outbox_words(void);

size_t qr_pieces_words(void);

size_t qr_pieces_bytes(void);

/*
 * Makes the record's words a fresh node: stakes of nodes 0, 1 .. (1 to 2,048 of them, each at least 1, together at most
 * 2^48), the own node's number, genesis's number (not 0). What stood in the words does not matter. Answers 17 where
 * they are not qr_record_words(stake_count) many, else 1 where something is out of range; then the words stay.
 */
uint64_t qr_start(uint64_t *record, size_t record_words, const uint64_t *stakes, size_t stake_count, size_t own,
                  uint64_t genesis);

/*
 * Makes the record's words a fresh watcher: a node of that ring that has no own number and never votes. It takes votes in every
 * node's name, a tray of them, blocks, certificates and looks, and only arms windows and tells which blocks are final: its outbox
 * gets records of kinds 6, 7 and 8 alone. It is never answered 6, and its timeouts are refused with 4. It writes certificates and
 * proofs as a node does. Where it has accepted the same votes, blocks and certificates as a node of the same stakes, in any order,
 * singly or in trays, the votes that the node cast among them, it has the same votes, weights and cards, keeps the same blocks and
 * certificates and holds the same; fed in the node's order it has them in the same places. Answers as qr_start does.
 */
uint64_t qr_watch(uint64_t *record, size_t record_words, const uint64_t *stakes, size_t stake_count, uint64_t genesis);

/*
 * The inputs of a node. Each changes the record, writes the records that it makes to the outbox from its front,
 * three words each (kind, slot, block; enum qr_record_kind), and puts their number into *made; words of the outbox past
 * them stay. The host sends the votes out, and an armed window's timeouts begin.
 */

/* Another node's vote, its signature verified by the host. Kinds 3 to 5 carry block 0. Refusals: 17, 9, 4, 3, 2, 6, 5, 7, 8. */
uint64_t qr_vote(uint64_t *record, size_t record_words, uint64_t *outbox, size_t outbox_words, size_t *made, uint64_t kind,
                 size_t node, size_t slot, uint64_t block);

/*
 * A block with its parent. Up to four are kept of a slot, each number with one parent; the node may cast notar for the
 * first alone, and outside a window's first slot it falls back only to a block that is kept. Refusals: 17, 9, 3, 5, 11; 7
 * where that very block is kept; 8 for a kept number with another parent, and for a fifth block.
 *
 * So that the four places never run out, ask qr_may_announce first, and announce where it answers 1. By this policy 8 means a number
 * that is kept with another parent, of every block that comes first in its slot or has the weights.
 *
 * For finality the leader's block must be the first of its slot that is answered 0, since the node votes for no other.
 */
uint64_t qr_block(uint64_t *record, size_t record_words, uint64_t *outbox, size_t outbox_words, size_t *made, size_t slot,
                  uint64_t number, size_t parent_slot, uint64_t parent);

/*
 * A slot's time is out. Refusals: 17, 9, 3, 10, 7; of a watcher 17, 9, and then 4 whatever the slot. Where the node has not voted in
 * the slot it skips every slot of the window in which it has not; so that blocks become final, wait for its vote there.
 */
uint64_t qr_timeout(uint64_t *record, size_t record_words, uint64_t *outbox, size_t outbox_words, size_t *made, size_t slot);

/* Only runs the rules. Refusals: 17, 9. */
uint64_t qr_look(uint64_t *record, size_t record_words, uint64_t *outbox, size_t outbox_words, size_t *made);

/*
 * A certificate that another node wrote, as its packet, its signatures verified by the host. It is checked in full against the
 * record's stakes, as qr_check_certificate does, and kept with its signers: of a slot one each of kinds 1, 2, 4 and 5 and up to
 * nine of kind 3; with a large table 11, 12, 14, 15 and 13. A certificate is held where the stored votes reach it or where it is
 * kept, and a held kind 1 counts as 2, a held 2 as 3. The weights of votes do not change; the own node among the signers stores
 * no own vote. Refusals: 17, 9; the checker's 12, 13, 4, 3, 5, 14, 15 and 12 for leftover bytes; 7 where one of that kind, slot
 * and block is kept, whoever signed it; 8 where one for another block is kept in its place, and for a tenth of kind 3.
 */
uint64_t qr_take(uint64_t *record, size_t record_words, uint64_t *outbox, size_t outbox_words, size_t *made,
                 const uint8_t *packet, size_t packet_bytes);

/*
 * Where a finality proof that another node wrote falls into its certificates, so that qr_take can take them one after the other: the
 * bytes of the first into *first, all of them where it is the only one (kind 1 or 11). It is checked in full against the record's
 * stakes, as qr_check_proof does. Hand the first part to qr_take, and then, where bytes are left, these; 7 is as good as 0. The first
 * may be answered 8, where another block's certificate is kept in its place: then hand over no more, and nothing has changed. The
 * second, lent room, never is. 0 beside a refusal. Refusals: 17; the proof checker's 12, 13, 4, 3, 5, 14, 15, 16, and 12 for leftover
 * bytes.
 */
uint64_t qr_split_proof(const uint64_t *record, size_t record_words, const uint8_t *packet, size_t packet_bytes, size_t *first);

/*
 * A run of other nodes' votes in one call, four words a vote: kind, node, slot, block. answers gets one number for each
 * vote, as qr_vote would answer it, from its front; numbers past them stay. The record, the outbox's records in order and
 * the answers are those of as many calls of qr_vote, a refused vote among them included; *made gets the number of records
 * of all votes together. The record is looked through once. An empty run is done, with 0 records, and runs no rule.
 * Refusals of the run as a whole, which takes nothing then: 17; 9, for the outbox or where answers has fewer places than
 * there are whole votes; 12, for a part of a vote at the end.
 */
uint64_t qr_tray(uint64_t *record, size_t record_words, uint64_t *outbox, size_t outbox_words, size_t *made,
                 const uint64_t *votes, size_t vote_words, uint64_t *answers, size_t answer_count);

/*
 * Write a packet to the buffer's front and put the number of its bytes into *written; bytes past them and the record
 * stay. A certificate is written exactly when it is held: where the stored votes reach it, with all stored signers, else with
 * those of a kept one of the kind asked for, else of a kept 2, else of a kept 1. A certificate's buffer has at least 32 bytes, a
 * proof's 64; with a large table 768 and 1,536. Refusals: 17, 9, 4, 3, 5, 18, those that apply.
 */
uint64_t qr_write_certificate(const uint64_t *record, size_t record_words, uint8_t *buffer, size_t buffer_bytes,
                              size_t *written, uint64_t kind, size_t slot, uint64_t block);

uint64_t qr_write_proof(const uint64_t *record, size_t record_words, uint8_t *buffer, size_t buffer_bytes, size_t *written,
                        size_t slot, uint64_t block);

/*
 * A slot's tally card into values: the weight of its skip votes, of its final votes and of those who count in its skip
 * certificate, the block with the most notar weight, the lowest where several have as much, and that weight; these two are 0
 * where there is no notar vote. Kept certificates add nothing to it. After every call the card is what a recount of the stored
 * votes gives; words in which one is not are refused with 17 by every call but qr_start and qr_watch, which look at the record's
 * length alone. Zeros beside a refusal. Refusals: 17, 3.
 */
uint64_t qr_card(const uint64_t *record, size_t record_words, size_t slot, uint64_t values[5]);

/* A slot's final block, which a record of kind 6 told, into *block; 0 where there is none, and beside a refusal. Refusals: 17, 3. */
uint64_t qr_final_block(const uint64_t *record, size_t record_words, size_t slot, uint64_t *block);

/*
 * Whether announcing a block now is right, by the policy for blocks: 1 for now into *now, 0 for not yet. It is right for a slot's first
 * block as it comes, and for a further one once it has rule D's weights in this record: its notar votes reach 40 percent of the stake,
 * or reach 20 and together with skip votes 60. At most three blocks of a slot ever have them. Where it is 1, qr_block takes the block;
 * where it is 0, ask again as votes come. Where qr_block would refuse the block this answers that number, with 0 beside it: 7 for one
 * that is kept, and 8 where four others are, which a host that follows meets only of blocks without the weights. Refusals: 17, 3, 5,
 * 11, 7, 8.
 */
uint64_t qr_may_announce(const uint64_t *record, size_t record_words, size_t slot, uint64_t number, size_t parent_slot,
                         uint64_t parent, uint64_t *now);

/* Whether a slot's window is armed, so that its timeouts are taken: 1 or 0 into *armed; 0 beside a refusal. Refusals: 17, 3. */
uint64_t qr_is_armed(const uint64_t *record, size_t record_words, size_t slot, uint64_t *armed);

/*
 * The stored votes of a node in a slot, the own node's too, into values: the block of its notar vote or 1 for a skip vote in the next
 * word, of these two one at most; the blocks of up to three notar-fallback votes, in the order of their coming; 1 for a skip-fallback
 * vote; 1 for a final vote. 0 for each that is not stored, and zeros beside a refusal. Refusals: 17, 3, 2.
 */
uint64_t qr_kept_votes(const uint64_t *record, size_t record_words, size_t slot, size_t node, uint64_t values[QR_VOTES_WORDS]);

/*
 * The blocks that a slot keeps into values: three words for each of its four places, in the order in which they were announced: the
 * block's number, its parent's slot and its parent's number. Zeros in a place that is empty, and beside a refusal. Refusals: 17, 3.
 */
uint64_t qr_kept_blocks(const uint64_t *record, size_t record_words, size_t slot, uint64_t values[QR_BLOCKS_WORDS]);

/*
 * A slot's two marks into values: 1 where its timeout was taken, else 0; 1 where another final block was told of it
 * (QR_RECORD_CONFLICT), else 0. Zeros beside a refusal. Refusals: 17, 3.
 */
uint64_t qr_slot_marks(const uint64_t *record, size_t record_words, size_t slot, uint64_t values[2]);

/*
 * Whose record it is, and of which ring, into values: the own number (a watcher's is the number of nodes), the number of nodes, all their
 * stake, genesis's number. Zeros beside a refusal. Refusals: 17.
 */
uint64_t qr_head(const uint64_t *record, size_t record_words, uint64_t values[4]);

/*
 * The certificates from other firms that a slot keeps, as lines from the list's front, QR_LINE_WORDS each, in the words in which
 * qr_check_certificate tells of one: kind, slot, block, signer count and weight; with a large table kinds 11 to 15. Kinds 1, 2, 4 and 5
 * come first, one each, then those of kind 3 in the order in which they were taken: at most QR_MOST_CERTIFICATES lines. *beside gets the
 * number of lines; words of the list past them stay. Refusals: 17, 3; 9, and *beside gets the number of lines needed.
 */
uint64_t qr_kept_certificates(const uint64_t *record, size_t record_words, size_t slot, uint64_t *list, size_t list_words,
                              size_t *beside);

/*
 * What a slot's stored votes weigh for a block, into values: its notar votes; those who count in its notar-fallback certificate, by a notar
 * or a notar-fallback vote for it, each node once; the slot's skip votes; and what is missing to rule D's weights: the least further stake
 * with which its notar votes would reach 40 percent, or 20 and together with the skip votes 60. That is 0 exactly where it has them. Kept
 * certificates add nothing. Zeros beside a refusal. Refusals: 17, 3; 5 for block 0.
 */
uint64_t qr_block_weights(const uint64_t *record, size_t record_words, size_t slot, uint64_t block, uint64_t values[4]);

/*
 * Check a packet against the stakes alone; their number tells the family. The kind, read first, tells how many numbers are
 * read, five or 67, whatever the table: a whole certificate of the other family is refused with 4, a broken one with 12 or 13.
 * values gets kind, slot, block, signer count and weight of the certificate, or of the proof's first; zeros beside a
 * refusal. *missing gets, beside 15, the least further stake with which the certificate that is too light, in a proof the
 * first or the second, would reach its threshold; otherwise 0. Refusals: 1, 12, 13, 4, 3, 5, 14, 15, and 16 for a proof.
 */
uint64_t qr_check_certificate(const uint64_t *stakes, size_t stake_count, const uint8_t *packet, size_t packet_bytes,
                              uint64_t values[5], uint64_t *missing);

uint64_t qr_check_proof(const uint64_t *stakes, size_t stake_count, const uint8_t *packet, size_t packet_bytes,
                        uint64_t values[5], uint64_t *missing);

/*
 * A finality proof that arrives in pieces. The host lends a state, QR_PIECES_WORDS words and QR_PIECES_BYTES bytes, and makes it
 * all 0 before the first piece: then nothing has been taken. It is lent again, as the call before left it, to each later call.
 * Of the packet it keeps as many bytes as a proof's answer can depend on, whatever its length.
 *
 * qr_piece takes the next bytes of the packet, none too. The stakes that come with the first piece are kept until the end, those
 * that come later are not looked at. Answers 0, which stands for "more"; with the first piece 1 where the stakes are no table,
 * and then nothing is taken; 17 where the state has another length, a mark out of range, or is not all 0 where its mark is 0.
 *
 * qr_end answers what qr_check_proof answers of all bytes since the first piece, wherever they were cut; afterwards the state is
 * all 0, for the next proof. 12 where no piece has been taken, and 17, which leaves the state as found, where it is none that
 * these calls leave: beside what a piece looks at, a kept table that is none, or something behind the stakes or the kept bytes.
 */
uint64_t qr_piece(uint64_t *words, size_t word_count, uint8_t *front, size_t front_bytes, const uint64_t *stakes,
                  size_t stake_count, const uint8_t *bytes, size_t byte_count);

uint64_t qr_end(uint64_t *words, size_t word_count, uint8_t *front, size_t front_bytes, uint64_t values[5],
                uint64_t *missing);

/*
 * A vote as a message between members: kind, node, slot and block in the packets' numbers, at most 16 bytes, in small and
 * large rings alike. Both take the number of nodes of the ring, 1 to 2,048, else they answer 1.
 */

/* Reads a message into kind, node, slot, block; zeros beside a refusal. Refusals: 1, 12, 13, 4, 3, 2, 5, and 12 for leftover bytes. */
uint64_t qr_read_vote(size_t node_count, const uint8_t *message, size_t message_bytes, uint64_t values[4]);

/*
 * Writes a message to the buffer's front, which has at least 16 bytes, and puts the number of its bytes into *written;
 * bytes past them stay. Refusals: 1, 9, 4, 3, 2, 5.
 */
uint64_t qr_write_vote(uint8_t *buffer, size_t buffer_bytes, size_t *written, size_t node_count, uint64_t kind, size_t node,
                       size_t slot, uint64_t block);

/*
 * Which stored votes of two records differ, from the votes alone: every vote that one record has and the other has not, as
 * lines from the list's front, QR_LINE_WORDS each: slot, node, kind, block and the side that has it, 1 or 2; ascending by slot,
 * node, kind and block. *beside gets the number of lines; 0 of them mean one stake table and equal stored votes, and only then.
 * Words of the list past the lines stay. The own numbers and the kept certificates play no part; where the stake tables differ
 * there is one line of five zeros and nothing else. Refusals: 17, and *beside gets the side whose record is bad, the first if
 * both are; 9, and *beside gets the number of lines needed.
 */
enum qr_side {
    QR_TABLES_DIFFER = 0,
    QR_FIRST_SIDE = 1,
    QR_SECOND_SIDE = 2
};

uint64_t qr_differ(const uint64_t *first, size_t first_words, const uint64_t *second, size_t second_words, uint64_t *list,
                   size_t list_words, size_t *beside);

/*
 * Which own votes of a record do not stand on what the record holds, by the rule that casts each, as lines from the list's front,
 * QR_LINE_WORDS each: slot, own number, kind, block and the rule; ascending by slot and kind, at most QR_MOST_FALLEN lines. A notar
 * vote stands on a kept block whose parent fits, a notar-fallback on another own initial vote, the weights and what rule D waits for,
 * a skip-fallback on an own notar vote and the weights, a final vote on an own notar vote, no own fallback and kind 2 held; a skip
 * stands on nothing. *beside gets the number of lines; words of the list past them stay. A record that this library left has none at
 * any moment, so a saved record that has one was altered, or not made by this library. Refusals: 17; 9, and *beside gets the number
 * of lines needed.
 */
enum qr_rule {
    QR_RULE_B = 2,
    QR_RULE_C = 3,
    QR_RULE_D = 4,
    QR_RULE_E = 5
};

uint64_t qr_stands(const uint64_t *record, size_t record_words, uint64_t *list, size_t list_words, size_t *beside);

/*
 * Which votes the first record counts in the name of the second's firm and the second record lacks, as lines from the list's front,
 * QR_LINE_WORDS each: slot, the firm, kind, block and what tells of the vote, 0 a stored vote, else the kind (1 to 5) of the kept
 * certificate that counts it; ascending by slot, stored votes before certificates, those of kinds 1, 2, 4 and 5 before those of 3, at
 * most QR_MOST_LACKED lines. The two may be one record; of a watcher as the second there is none. A line is a dispute and no verdict: the first shows the vote's signature and the
 * second record is false, or it cannot and its own is; and a record that is older than a vote lacks it, so ask for a later one. *beside
 * gets the number of lines; words of the list past them stay. Refusals: 17, and *beside gets the side whose record is bad, the first if
 * both are; 1 where the stake tables differ; 9, and *beside gets the number of lines needed.
 */
uint64_t qr_vouched(const uint64_t *first, size_t first_words, const uint64_t *second, size_t second_words, uint64_t *list,
                    size_t list_words, size_t *beside);

/*
 * The same of a packet, a certificate or a proof: which votes it counts the record's firm for and the record lacks. A packet of one
 * certificate is checked as qr_check_certificate does, a longer one as qr_check_proof, under the record's stakes. At most two lines.
 * Refusals: 17; the checker's; 9, and *beside gets the number of lines needed.
 */
uint64_t qr_vouched_packet(const uint64_t *record, size_t record_words, const uint8_t *packet, size_t packet_bytes, uint64_t *list,
                           size_t list_words, size_t *beside);

/*
 * Which blocks two records keep with two parents, as lines from the list's front, QR_LINE_WORDS each: slot, the block's number, its
 * parent's slot and number, and the side that keeps it so, 1 or 2. Of each such block there are two lines, the first record's and then
 * the second's; ascending by slot, and in a slot in the order in which they were announced to the first; at most QR_MOST_TWICE lines.
 * Watchers keep blocks too, and whose records they are plays no part. Nobody is to blame for a line: hosts number blocks, and one number
 * of a slot is to be one block with one parent; while it is not, nothing is promised of the chain of final blocks. *beside gets the number
 * of lines; words of the list past them stay. Refusals as qr_vouched has them: 17, and *beside gets the side whose record is bad, the
 * first if both are; 1 where the stake tables differ; 9, and *beside gets the number of lines needed.
 */
uint64_t qr_same_parents(const uint64_t *first, size_t first_words, const uint64_t *second, size_t second_words, uint64_t *list,
                         size_t list_words, size_t *beside);

/*
 * Writes what a number of enum qr_number means, a sentence for people, to the buffer's front, which has at least QR_TEXT_BYTES bytes,
 * and puts the number of its bytes into *written; no zero byte ends it, and bytes past it stay. 0 has a text too, and for every other
 * number it is "No refusal has this number." Refusals: 9.
 */
uint64_t qr_refusal_text(uint8_t *buffer, size_t buffer_bytes, size_t *written, uint64_t number);

#ifdef __cplusplus
}
#endif

#endif
