/* Saves the records of two members of a ring of three whose votes differ, of one of another ring, and words that are no record. */
#include <stdio.h>
#include <string.h>

#include "quointrowel.h"

static uint64_t record[QR_RECORD_WORDS(3)], outbox[QR_OUTBOX_WORDS];

/* A record's words, 8 bytes each, lowest byte first. */
static int save(const char *folder, const char *name, size_t words)
{
    char path[4096];
    snprintf(path, sizeof path, "%s/%s", folder, name);
    FILE *file = fopen(path, "wb");
    if (!file)
        return 1;
    for (size_t i = 0; i < words; i++)
        for (int b = 0; b < 8; b++)
            putc((int)(record[i] >> (8 * b) & 255), file);
    return fclose(file) != 0;
}

static void vote(uint64_t kind, size_t node, size_t slot, uint64_t block)
{
    size_t made;
    qr_vote(record, QR_RECORD_WORDS(3), outbox, QR_OUTBOX_WORDS, &made, kind, node, slot, block);
}

int main(int count, char **words)
{
    const uint64_t stakes[3] = {4, 3, 3}, other[3] = {4, 3, 2};
    const char *folder = count > 1 ? words[1] : ".";
    int failed = 0;

    qr_start(record, QR_RECORD_WORDS(3), stakes, 3, 0, 1);
    failed |= save(folder, "fresh", QR_RECORD_WORDS(3));
    vote(QR_VOTE_NOTAR, 2, 1, 9);
    vote(QR_VOTE_FINAL, 2, 1, 0);
    vote(QR_VOTE_NOTAR_FALLBACK, 1, 16, 18446744073709551615u);
    vote(QR_VOTE_NOTAR_FALLBACK, 1, 16, 5);
    failed |= save(folder, "tokyo", QR_RECORD_WORDS(3));
    qr_start(record, QR_RECORD_WORDS(3), stakes, 3, 0, 1);
    vote(QR_VOTE_NOTAR, 2, 1, 8);
    vote(QR_VOTE_NOTAR_FALLBACK, 1, 16, 5);
    vote(QR_VOTE_NOTAR_FALLBACK, 1, 16, 18446744073709551615u);
    vote(QR_VOTE_SKIP_FALLBACK, 1, 16, 0);
    failed |= save(folder, "zurich", QR_RECORD_WORDS(3));
    failed |= save(folder, "short", QR_RECORD_WORDS(2));
    qr_start(record, QR_RECORD_WORDS(3), other, 3, 0, 1);
    failed |= save(folder, "others", QR_RECORD_WORDS(3));
    return failed;
}
