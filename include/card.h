/*
 * The member card's contract policy engine: seven functions, proved, in libcard.a (`tools/archive`).
 *
 * Each function takes any bytes of any length and always returns. Its result has two parts, an answer and a second number, which
 * CARD_ANSWER and CARD_SECOND take out; the result of card_aid has macros of its own. On any answer but CARD_ACCEPTED
 * every byte that was lent is left as it was.
 *
 * What the caller owes:
 *
 * - Each pointer is not null and points to as many bytes as its length says. A length of 0 is fine, with any pointer but null: of null
 *   the toolchain promises nothing. Where a host has null for no bytes it lends (const uint8_t *)"" with the length 0.
 * - The bytes are initialised, also those that are written without being read first, as by card_empty: the proofs speak of bytes
 *   that have a value.
 * - Bytes that a function may write (`image` without const, `large` and `out`) overlap nothing else that is lent in the same call. So
 *   a card is neither converted nor enlarged in its own place.
 * - Until the call returns nobody else writes what is lent: no other thread, signal handler or interrupt, and nobody through a
 *   file that is mapped there.
 *
 * There are two cards, and the length of the image that is lent says which:
 *
 * - The small card: an image of CARD_IMAGE_SIZE bytes and version 02, records of version 01 and at most CARD_RECORD_SIZE bytes; 8
 *   packages of 8 services, 16 rows in each list.
 * - The large card: an image of CARD_LARGE_IMAGE_SIZE bytes and version 03, records of version 02 and at most CARD_LARGE_RECORD_SIZE
 *   bytes; 16 packages of 16 services, 32 rows in each list.
 *
 * A host of one card has buffers of its two sizes. A host of both has buffers of the large sizes, and lends an image with the length of
 * its card. A record for one card is refused with 2 by the other; no function turns one into the other.
 *
 * An image is changed in place, and of a call that does not return nothing is promised: where the power may fail, judge on a copy, and
 * store the copy after the call.
 *
 * What the functions use, as `tools/archive` compiles them:
 *
 * - No heap and no state: no byte outlives a call, and several threads may call at once.
 * - A little stack: CARD_STACK_JUDGE and its like, below.
 * - Of the C library at most what compilers call themselves: memcpy, memmove, memset, memcmp and bcmp. A host without a C library
 *   supplies these.
 * - x86-64 as every such processor has it, with SSE2 and nothing later, called by the System V convention; the code may stand at any
 *   address. On bare metal, SSE is switched on, an interrupt saves the xmm registers that it uses, and it is not taken on the
 *   same stack unless it spares the 128 bytes below the stack pointer (the convention's red zone).
 *
 * A card with one package on it:
 *
 *     uint8_t image[CARD_IMAGE_SIZE] = {0};
 *     card_empty(image, sizeof image);
 *     static const uint8_t load[] = {0, 14, 1, 1, 5, 0xF0, 0, 0, 0, 1, 0, 0, 0, 0};
 *     uint32_t result = card_judge(image, sizeof image, load, sizeof load);
 *     if (CARD_ANSWER(result) == CARD_ACCEPTED)
 *         printf("package number %u\n", (unsigned)CARD_SECOND(result));
 */
#ifndef CARD_H
#define CARD_H

#include <stddef.h>
#include <stdint.h>

#ifdef __cplusplus
extern "C" {
#endif

/*
 * The version of what this file promises. The major number goes up when a host that kept to it may have to change: parameters,
 * results, the meaning of an answer, the bytes of images and records. The minor number goes up when something is added.
 *
 * 4.1: the large card, with 16 packages of 16 services: card_enlarge, CARD_LARGE_IMAGE_SIZE, CARD_LARGE_RECORD_SIZE and
 * CARD_STACK_ENLARGE are new, and card_check, card_empty, card_judge and card_read_out take its images, for which 4.0 gave 1; card_aid
 * takes its records, of version 02, for which 4.0 found no AID. On the small card every answer and byte is what it was.
 * CARD_STACK_CHECK goes from 416 to 576, CARD_STACK_CONVERT from 448 to 640, CARD_STACK_READ_OUT from 512 to 640, CARD_STACK_AID from
 * 256 to 320.
 *
 * 4.0: kinds 9 and 10, which added and removed a need, are retired: a record of such a kind gets 2, and card_aid finds no AID in it. A
 * need comes with a whole contract (kinds 1 and 11), and goes with its call (kind 6), its package, or the next whole contract; one that
 * kind 9 set before is in force and is read out as any other. Images are what they were.
 *
 * 3.1: a record of kind 11 has a load's layout, and puts a whole contract in place of an installed package's. 3.0 gave 2 for it. Images
 * are what they were. CARD_STACK_JUDGE goes from 1152 to 1536.
 *
 * 3.0: a grant may name a service that its package does not yet provide, and waits until caller and service are both on the card; a
 * service that is removed leaves its grants waiting. So 3 and 6 are not given for such a grant, and removing a service may get 11. An
 * image has CARD_IMAGE_SIZE = 1110 bytes and version 02, where 2.0 had 1094 and version 01: of an image of version 01 card_convert makes
 * one of version 02, and every other function gives 1. CARD_OLD_IMAGE_SIZE and CARD_STACK_CONVERT are new.
 *
 * 2.0: a method token is 0 to 127, where 1.0 had 0 to 255. A record with a higher one gets 2. An image made with 1.0 that holds a higher
 * one is not sound: card_check, card_judge and card_read_out give 1. Interface tokens stay 0 to 255.
 */
#define CARD_VERSION_MAJOR 4
#define CARD_VERSION_MINOR 1
#define CARD_VERSION (CARD_VERSION_MAJOR * 1000 + CARD_VERSION_MINOR)

/* Bytes of an image of the small card and of the large one. */
#define CARD_IMAGE_SIZE 1110
#define CARD_LARGE_IMAGE_SIZE 3639

/* Bytes of an image of version 01, which card_convert takes. */
#define CARD_OLD_IMAGE_SIZE 1094

/* Bytes of the longest record of each: a buffer of this size holds whatever is read out of such a card. */
#define CARD_RECORD_SIZE 4145
#define CARD_LARGE_RECORD_SIZE 15564

/*
 * Bytes of stack that a call takes at most, on either card, its return address and glibc's memcpy and memset among them. No theorem
 * speaks of the stack: these are measured, with a little room, and a test holds the archive to them (tests/tests/stack.rs).
 */
#define CARD_STACK_CHECK 576
#define CARD_STACK_EMPTY 64
#define CARD_STACK_CONVERT 640
#define CARD_STACK_ENLARGE 640
#define CARD_STACK_JUDGE 1536
#define CARD_STACK_READ_OUT 640
#define CARD_STACK_AID 320

/*
 * The answers. Where several causes apply the lowest is given. The second number of a refusal is 255, and 0 when reading out; that of an
 * acceptance stands with each function.
 */
enum card_answer {
    CARD_ACCEPTED = 0,
    CARD_UNSOUND_IMAGE = 1,        /* the image is not sound, as one of version 01 or with a method token of 128 or more, or has
                                      neither card's size */
    CARD_MALFORMED_RECORD = 2,     /* length, version (as of a record of the other card), kind (not 1 to 8 or 11), count or AID length
                                      wrong, a method token of 128 or more, or bytes missing or left over */
    CARD_CONTRADICTORY_RECORD = 3, /* a row or AID is repeated; the own AID as the other end; in a whole contract (kinds 1 and 11), a
                                      need that is not called */
    CARD_INSTALLED = 4,            /* load of an AID that is installed */
    CARD_NOT_INSTALLED = 5,        /* the package, or the package number to read out, is not installed */
    CARD_POINTLESS_CHANGE = 6,     /* adds what the contract has, or removes what it lacks */
    CARD_NO_NUMBER = 7,            /* no package number left, or no service number of the package */
    CARD_UNGRANTED_CALL = 8,       /* a met call would stand without its grant */
    CARD_UNMET_NEED = 9,           /* a need would be unmet */
    CARD_UNMET_FULL = 10,          /* more than 16 unmet calls afterwards, on the large card 32 */
    CARD_WAITING_FULL = 11,        /* more than 16 waiting grants afterwards, on the large card 32 */
    CARD_BUFFER_SHORT = 12         /* the buffer is shorter than the record read out */
};

/* The two parts of a result: answer * 65536 + second number. Not for card_aid's. */
#define CARD_ANSWER(result) ((uint32_t)(result) >> 16)
#define CARD_SECOND(result) ((uint32_t)(result) & 0xFFFFu)

/* Checks an image: accepted with the count of installed packages where it is sound, else 1. */
uint32_t card_check(const uint8_t *image, size_t image_length);

/*
 * Writes the empty image of the card that has as many bytes: accepted with 0. Of a buffer that is neither CARD_IMAGE_SIZE nor
 * CARD_LARGE_IMAGE_SIZE bytes: 1.
 */
uint32_t card_empty(uint8_t *image, size_t image_length);

/*
 * Writes an image of version 01 as one of version 02: accepted with 0, and image holds the same contracts, under the same package and
 * service numbers and with both lists in order. Where old is not CARD_OLD_IMAGE_SIZE bytes and sound (no method token is above 127), or
 * image not CARD_IMAGE_SIZE bytes: 1. The old image stays as it is; what image held before does not matter.
 */
uint32_t card_convert(const uint8_t *old, size_t old_length, uint8_t *image, size_t image_length);

/*
 * Writes an image of the small card as one of the large card: accepted with 0, and large holds the same contracts, under the same package
 * and service numbers and with both lists in order. Where image is not CARD_IMAGE_SIZE bytes and sound, or large not
 * CARD_LARGE_IMAGE_SIZE bytes: 1. The small image stays as it is; what large held before does not matter. There is no way back.
 */
uint32_t card_enlarge(const uint8_t *image, size_t image_length, uint8_t *large, size_t large_length);

/*
 * Judges a record on an image. Accepted, the image is changed, and the second number is the package number (on removal, the one it had).
 * Refused: 1 to 11; of kind 11, which puts a contract in place of another, 1, 2, 3, 5, 8, 9, 10 or 11; a record of the other card's
 * version gets 2.
 */
uint32_t card_judge(uint8_t *image, size_t image_length, const uint8_t *record, size_t record_length);

/*
 * Writes the contract of a package number to the start of out, as a record of kind 1 of the image's card: accepted with the record's
 * length; the bytes of out past it stay. CARD_RECORD_SIZE bytes are enough for the small card, CARD_LARGE_RECORD_SIZE for either.
 * Refused: 1, 5 or 12.
 */
uint32_t card_read_out(const uint8_t *image, size_t image_length, uint32_t number, uint8_t *out, size_t out_length);

/*
 * Where the bytes of a record's first AID stand in the record, and how many they are; of a malformed record (cause 2) both are 0. The
 * record is of either card, by its version byte.
 */
uint32_t card_aid(const uint8_t *record, size_t record_length);

/* The two parts of card_aid's result. */
#define CARD_AID_AT(result) ((uint32_t)(result) >> 16)
#define CARD_AID_LENGTH(result) ((uint32_t)(result) & 0xFFFFu)

#ifdef __cplusplus
}
#endif

#endif
