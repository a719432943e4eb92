/* A finality proof of kinds 2 and 5 (12 and 15) that all of so many nodes of stake 1 have signed, for its cost.
   pieces NODES SIZE ROUNDS: in pieces of SIZE bytes and the end; SIZE 0 checks it whole. */
#include <stdint.h>
#include <stdlib.h>

#include "quointrowel.h"

static uint64_t stakes[QR_MOST_NODES], words[QR_PIECES_WORDS];
static uint8_t proof[QR_LARGE_PROOF_BYTES], front[QR_PIECES_BYTES];
static size_t nodes, proof_bytes;

static void put_number(uint64_t number)
{
    for (; number > 127; number >>= 7)
        proof[proof_bytes++] = 128 | (number & 127);
    proof[proof_bytes++] = number;
}

/* A certificate of slot 1, behind what stands in the proof. */
static void put_certificate(uint64_t kind, uint64_t block)
{
    size_t masks = nodes > QR_MOST_SMALL ? QR_MOST_NODES / 64 : 1;
    put_number(kind + (masks > 1 ? QR_LARGE_KINDS : 0));
    put_number(1);
    put_number(block);
    for (size_t i = 0; i < masks; i++) {
        size_t left = nodes > 64 * i ? nodes - 64 * i : 0;
        put_number(left > 63 ? UINT64_MAX : (UINT64_C(1) << left) - 1);
    }
    for (size_t i = 0; i < masks; i++)
        put_number(0);
}

static uint64_t check(size_t size)
{
    uint64_t values[5], missing;
    if (size == 0)
        return qr_check_proof(stakes, nodes, proof, proof_bytes, values, &missing);
    for (size_t at = 0; at < proof_bytes; at += size) {
        size_t bytes = proof_bytes - at < size ? proof_bytes - at : size;
        if (qr_piece(words, QR_PIECES_WORDS, front, QR_PIECES_BYTES, stakes, nodes, proof + at, bytes) != QR_DONE)
            return 1;
    }
    return qr_end(words, QR_PIECES_WORDS, front, QR_PIECES_BYTES, values, &missing);
}

int main(int count, char **word)
{
    if (count != 4)
        return 1;
    nodes = strtoul(word[1], NULL, 10);
    if (nodes < 1 || nodes > QR_MOST_NODES)
        return 1;
    for (size_t i = 0; i < nodes; i++)
        stakes[i] = 1;
    put_certificate(QR_CERTIFICATE_NOTAR, 7);
    put_certificate(QR_CERTIFICATE_FINAL, 0);
    size_t size = strtoul(word[2], NULL, 10);
    for (unsigned long round = strtoul(word[3], NULL, 10); round > 0; round--)
        if (check(size) != QR_DONE)
            return 1;
    return 0;
}
