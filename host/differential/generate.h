/*
 * generate.h - random stores and random calls for the tests that run the
 * libraries: mostly sensible ones, so that histories get somewhere, with a
 * damaged fraction, so that every refusal is met.
 *
 * Everything follows from the seed: the same seed gives the same calls on
 * every machine.
 */

#ifndef GENERATE_H
#define GENERATE_H

#include <stdbool.h>
#include <stddef.h>
#include <stdint.h>

#include "../include/ridge.h"

enum {
    CDB_ROOM = 64,
    /* Room for 129 blocks, one more than a command may move, and some. */
    DATA_ROOM = 130 * RIDGE_BLOCK_BYTES,
    SENSE_ROOM = 256,
    /* A store of so many slots is a large one: transfers of 100 to 128 blocks
       and damage at its last slots are what it is for. */
    LARGE_SLOTS = 100,
    /* A store of so many slots fills a word of marks, or nearly: what it is for
       is the end of that word, and what lies behind it. */
    EDGE_SLOTS = 62,
    /* With so many slots there may be more runs of mapped and of unmapped
       blocks than one GET LBA STATUS tells of. */
    RUNS_SLOTS = 16,
    RUNS_TOLD = 32
};

struct random {
    uint64_t state;
};

/* A store as ridge.h describes it, with room for the largest. */
struct store {
    uint64_t format;
    struct ridge_unit unit;
    uint64_t owners[RIDGE_SLOTS];
    size_t slots;
    struct ridge_marks marks;
    uint8_t medium[RIDGE_SLOTS * RIDGE_BLOCK_BYTES];
};

/* One call, without the store it is made on. */
struct request {
    uint64_t nexus;
    size_t cdb_bytes;
    size_t data_out_bytes;
    size_t data_in_bytes;
    size_t sense_bytes;
    uint8_t cdb[CDB_ROOM];
    uint8_t data_out[DATA_ROOM];
};

uint64_t random_word(struct random *random);

/* A number from 0 to bound - 1; bound is not 0. */
uint64_t random_below(struct random *random, uint64_t bound);

/* True in the given percentage of cases. */
bool random_percent(struct random *random, unsigned percent);

void random_fill(struct random *random, uint8_t *bytes, size_t count);

/* One of the listed words. */
uint64_t random_choice(struct random *random, const uint64_t *words,
                       size_t count);

#define RANDOM_CHOICE(random, ...)                                   \
    random_choice(random, (const uint64_t[]){__VA_ARGS__},           \
                  sizeof((const uint64_t[]){__VA_ARGS__}) / sizeof(uint64_t))

/* A number of slots within bounds: mostly few, else about as many as a word of
   marks has bits, or LARGE_SLOTS and more. */
size_t generate_slots(struct random *random);

/* A capacity within bounds for so many slots: small or at an edge of the field
   widths, and seldom below what a large pool holds. */
uint64_t generate_capacity(struct random *random, size_t slots);

/* The marks that go with these owners, as Q-7 has them. The tests make them by
   themselves, in another way than either program. */
struct ridge_marks marks_due(const uint64_t *owners, size_t slots);

bool same_marks(const struct ridge_marks *one, const struct ridge_marks *other);

/* Gives the store a random valid map, its marks and random medium bytes: blocks
   strewn over the slots, short runs and gaps in turn, most slots of a large
   store filled in order, or as many as reach an end of a word of marks. */
void generate_map(struct random *random, struct store *store);

/* Makes random registrations, some of which may share a key, and no
   reservation. */
void generate_registrations(struct random *random, struct ridge_rights *rights);

/* Puts a reservation of that type, if anybody is registered to hold it. */
void generate_reservation(struct random *random, struct ridge_rights *rights,
                          uint32_t type);

/* Makes random registrations, mostly with a reservation, and a generation. */
void generate_rights(struct random *random, struct ridge_rights *rights);

/* Puts what waits for each nexus, registered or not: in half of the cases
   nothing, else something for some of them or for all. */
void generate_attentions(struct random *random,
                         uint8_t attentions[RIDGE_NEXUSES]);

/* Whether the number is one of the two formats of sense, in its whole width. */
bool is_format(uint64_t number);

uint64_t generate_format(struct random *random);

/* A number that is no format: one beside those, one that is a format if some of
   its bits are cut, or any. */
uint64_t generate_wrong_format(struct random *random);

/* The bytes of sense that a call must lend to a store of that format. */
size_t sense_wanted(uint64_t format);

/* A random valid store. */
void generate_store(struct random *random, struct store *store);

/* A nexus number, mostly one that is registered; sometimes above 15. */
uint64_t generate_nexus(struct random *random,
                        const struct ridge_rights *rights);

/* A call of any command by that nexus, mostly sensible on that store. */
void generate_request(struct random *random, const struct store *store,
                      uint64_t nexus, struct request *request);

/* As generate_request, but the operation code is 5Fh. */
void generate_reserve_out(struct random *random, const struct store *store,
                          uint64_t nexus, struct request *request);

/* PREEMPT, mostly with service action key 0 and mostly by a registered nexus
   that gives its key: under types 7 and 8 it takes over. Any type is named. */
void generate_take_over(struct random *random, const struct store *store,
                        struct request *request);

/* A reservation-out call made to meet answers 6 and 7, or one that takes
   over. */
void generate_rare(struct random *random, const struct store *store,
                   struct request *request);

/* A reservation-out call that others must know of, or nearly: PREEMPT, CLEAR,
   RELEASE and unregistering, mostly by a registered nexus that gives its key
   and for which nothing waits. */
void generate_notice(struct random *random, const struct store *store,
                     struct request *request);

/* A nexus for which something waits; RIDGE_NEXUSES if there is none. */
uint64_t generate_waiting(struct random *random, const struct ridge_unit *unit);

/* A call by a nexus for which something waits, more often than elsewhere an
   INQUIRY, or one that is answered 1 or 11. Where nothing waits for anybody it
   makes no call and says false. */
bool generate_attended(struct random *random, const struct store *store,
                       struct request *request);

/* A call that takes free slots, the first of them or all, or wants one more, or
   that frees slots at an end of the pool or of a word of marks; mostly by a
   nexus that no reservation stops and for which nothing waits. */
void generate_room(struct random *random, const struct store *store,
                   struct request *request);

/* Gives the call a fault that is tested only after the state: an operation code
   that is not listed, a CDB of another length, or a sender for whom something
   waits, where there is one. */
void generate_fault(struct random *random, const struct store *store,
                    struct request *request);

/* The key of a nexus, 0 if it is not registered. */
uint64_t key_of(const struct ridge_rights *rights, uint64_t nexus);

/* READ would conflict for it: under 3 all but the holder, under 6 and 8 all
   that are not registered. A nexus above 15 is never registered. */
bool is_shut_out(const struct ridge_rights *rights, uint64_t nexus);

/* The bytes that an INQUIRY has to tell, of its page or of the standard data; 0
   if bit 0 of byte 1 asks for a page that is not listed. */
uint64_t inquiry_bytes(const uint8_t *cdb);

/* Of the first `count` descriptors in an UNMAP's list, the first from number
   `from` on that reaches past the capacity; `count` if none does. */
size_t failing_descriptor(const uint8_t *list, size_t from, size_t count,
                          uint64_t capacity);

/* A place that is used, or is not; RIDGE_PLACES if there is none. */
size_t generate_place(struct random *random, const struct ridge_rights *rights,
                      bool used);

#endif
