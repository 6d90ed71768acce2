/* A host in C of both cards: converts a card of version 01, judges four records and reads a contract out; then enlarges the card,
 * and does the same on the large one. examples/run builds it, runs it and compares what it prints with examples/card.out. */

#include <stddef.h>
#include <stdint.h>
#include <stdio.h>

#include "card.h"

/* The package F000000001 provides the service 0.0 and grants it to F000000002. */
static const uint8_t handicap_log[] = {
    0, 24, 1, 1, 5, 0xF0, 0, 0, 0, 1, 1, 0, 0, 0, 1, 5, 0xF0, 0, 0, 0, 2, 0, 0, 0};

/* F000000003 calls the service, which is not granted to it. */
static const uint8_t bar_purse[] = {
    0, 22, 1, 1, 5, 0xF0, 0, 0, 0, 3, 0, 1, 5, 0xF0, 0, 0, 0, 1, 0, 0, 0, 0};

/* F000000002 calls the service and needs it. */
static const uint8_t organiser[] = {
    0, 30, 1, 1, 5, 0xF0, 0, 0, 0, 2, 0, 1, 5, 0xF0, 0, 0, 0, 1, 0, 0,
    0, 1, 5, 0xF0, 0, 0, 0, 1, 0, 0};

/* F000000001 grants the service 0.1, which it does not provide yet, to F000000003. */
static const uint8_t early_grant[] = {0, 18, 1, 7, 5, 0xF0, 0, 0, 0, 1, 5, 0xF0, 0, 0, 0, 3, 0, 1};

/* For the large card: F000000003 calls that service. The counts of calls, grants and needs have two bytes. */
static const uint8_t large_purse[] = {
    0, 25, 2, 1, 5, 0xF0, 0, 0, 0, 3, 0, 0, 1, 5, 0xF0, 0, 0, 0, 1, 0, 1, 0, 0, 0, 0};

static void print_bytes(const uint8_t *bytes, uint32_t count) {
    for (uint32_t at = 0; at < count; at++) {
        printf("%s%02X", at == 0 ? "" : " ", bytes[at]);
    }
    printf("\n");
}

/* Judges a record and prints what the card says. The length of the image says which card it is. */
static void judge(uint8_t *image, size_t image_length, const uint8_t *record, size_t length) {
    uint32_t aid = card_aid(record, length);
    uint32_t result = card_judge(image, image_length, record, length);
    if (CARD_ANSWER(result) == CARD_ACCEPTED) {
        printf("accepted, package %u, AID ", (unsigned)CARD_SECOND(result));
    } else {
        printf("refused, cause %u, AID ", (unsigned)CARD_ANSWER(result));
    }
    print_bytes(record + CARD_AID_AT(aid), CARD_AID_LENGTH(aid));
}

/* Prints how many packages a card has, and the contract of package 0; 0 when both are told. */
static int report(const uint8_t *image, size_t image_length) {
    static uint8_t contract[CARD_LARGE_RECORD_SIZE];
    uint32_t checked = card_check(image, image_length);
    if (CARD_ANSWER(checked) != CARD_ACCEPTED) {
        fprintf(stderr, "the image is not sound\n");
        return 1;
    }
    printf("packages on the card: %u\n", (unsigned)CARD_SECOND(checked));

    uint32_t read = card_read_out(image, image_length, 0, contract, sizeof contract);
    if (CARD_ANSWER(read) != CARD_ACCEPTED) {
        fprintf(stderr, "package 0 is not read out: %u\n", (unsigned)CARD_ANSWER(read));
        return 1;
    }
    printf("contract of package 0: ");
    print_bytes(contract, CARD_SECOND(read));
    return 0;
}

int main(void) {
    /* A card that was made before version 02: its length, its version, and no package. */
    uint8_t old[CARD_OLD_IMAGE_SIZE] = {0x04, 0x46, 0x01};
    uint8_t image[CARD_IMAGE_SIZE] = {0};
    uint8_t large[CARD_LARGE_IMAGE_SIZE] = {0};

    /* A card that begins now is written by card_empty(image, sizeof image). */
    if (CARD_ANSWER(card_convert(old, sizeof old, image, sizeof image)) != CARD_ACCEPTED) {
        fprintf(stderr, "the old image is not converted\n");
        return 1;
    }
    judge(image, sizeof image, handicap_log, sizeof handicap_log);
    judge(image, sizeof image, bar_purse, sizeof bar_purse);
    judge(image, sizeof image, organiser, sizeof organiser);
    judge(image, sizeof image, early_grant, sizeof early_grant);
    if (report(image, sizeof image) != 0) {
        return 1;
    }

    if (CARD_ANSWER(card_enlarge(image, sizeof image, large, sizeof large)) != CARD_ACCEPTED) {
        fprintf(stderr, "the card is not enlarged\n");
        return 1;
    }
    printf("enlarged\n");
    /* A record of the small card's version gets 2 now. */
    judge(large, sizeof large, bar_purse, sizeof bar_purse);
    judge(large, sizeof large, large_purse, sizeof large_purse);
    return report(large, sizeof large);
}
