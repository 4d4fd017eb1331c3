/*
 * ridge.h - the C interface of the proved library libridge.a, version 5.0.0
 *
 * One thinly provisioned direct access logical unit: blocks of 512 bytes,
 * unmapped blocks read as zeros. The caller lends all memory; the library
 * allocates nothing, keeps nothing between calls and has no global state.
 *
 * A STORE is five things the caller keeps:
 *   format   of its sense data, enum ridge_format below: chosen when the store
 *            is made, and changed by no call
 *   unit     the unit's record, struct ridge_unit below
 *   owners   one word of 64 bits per slot: 0 is free, otherwise the block
 *            address plus 1 of the block that lies in the slot
 *   marks    one bit per slot, struct ridge_marks below: set exactly if a block
 *            lies in the slot
 *   medium   512 bytes per slot, slot 0 first
 *
 * LENT BUFFERS. All buffers of one call are disjoint: no two of *unit, owners,
 * *marks, medium, cdb, data_out, data_in, sense, *returned, *free_slots and
 * *lowest_free share a byte. None is kept after the call returns. No pointer is
 * null, not even that of a buffer of 0 bytes. unit, owners, marks, returned,
 * free_slots and lowest_free are aligned to 8 bytes.
 *
 * THREADS. Every call is complete in itself. Calls on different stores may run
 * on different threads at once; one store is one thread's at a time.
 *
 * ANSWERS. Each function returns one of these numbers (9 is not used):
 *
 *   No.  Status     Sense       When
 *    0   00h GOOD   none        done
 *    1   02h        05/20/00    operation code not listed
 *    2   02h        05/24/00    a field of the CDB
 *    3   02h        05/21/00    block address + count > capacity; GET LBA
 *                               STATUS from an address at or past it
 *    4   02h        05/1A/00    parameter list length
 *    5   02h        05/26/00    a field of the parameter list
 *    6   02h        05/55/04    new registration, all 8 places used
 *    7   02h        05/26/04    holder's RELEASE names another type
 *    8   02h        07/27/07    more unmapped blocks in a write than free slots
 *   10   18h        none        reservation conflict
 *   11   none       none        unusable call or invalid state
 *   12   none       none        data-out shorter than the blocks (WRITE SAME:
 *                               the one block) or list length, data-in than
 *                               the bytes returned
 *   13   02h        06/2A/03,   an attention was waiting for the nexus: one of
 *                   06/2A/04,   enum ridge_attention below
 *                   06/2A/05
 *
 * ATTENTIONS. A reservation-out command may do to another nexus what that one
 * must know: it then waits in the unit's record, one for each nexus, the newest
 * in place of an older. The next command of that nexus, whatever it is but
 * INQUIRY, is answered 13 with the attention's codes, is not done, and takes
 * the attention away. Calls that are answered 1 or 11 leave it, and so does
 * INQUIRY, which is answered as ever.
 *
 * SENSE. Where the status is 02h sense data is written, in the store's format:
 * the key, the codes, and what else the answer has to tell. Answers 2 and 5
 * POINT at the wrong field: by a byte that is C8h for the CDB, 88h for the
 * parameter list, plus the number of the field's highest bit (0 to 7), and by
 * two bytes with the number of its first byte, counted from 0. Answers 3 and 8
 * tell an ADDRESS: the one in the CDB, of UNMAP that of the first descriptor
 * that fails. Numbers have their most significant byte first.
 *
 *   RIDGE_FIXED: 18 bytes. Byte 0 is 70h, byte 2 the key, byte 7 0Ah, bytes 12
 *   and 13 the codes, 15 to 17 the pointer, others 0. With an address up to
 *   FFFF_FFFFh byte 0 is F0h (VALID) and bytes 3 to 6 are the address; a larger
 *   one is not shown: byte 0 is 70h and they are 0, never a part of it.
 *
 *   RIDGE_DESCRIPTOR: 8, 16 or 20 bytes. Byte 0 is 72h, byte 1 the key, bytes 2
 *   and 3 the codes, byte 7 how many bytes follow, others 0. Then come, of a
 *   pointer, 02h 06h 00h 00h, its three bytes and 00h; of an address, 00h 0Ah
 *   80h 00h and its eight bytes; of neither, nothing.
 *
 * With another status, or none, sense is untouched, as its bytes past those are
 * always. An answer other than 0 leaves the store as it was, but that 13 takes
 * away the attention that it tells.
 */

#ifndef RIDGE_H
#define RIDGE_H

#include <stddef.h>
#include <stdint.h>

#ifdef __cplusplus
extern "C" {
#endif

/*
 * The interface number is that of the functions, the record's fields and
 * where they lie, the bounds and the answer numbers below. It rises when a
 * caller, or a record kept by one, that was right under the old number may be
 * wrong under the new one: another parameter, another field, another width,
 * place or meaning of one. Who keeps records keeps this number with them.
 *
 * From 1 to 2 the record took the place of twenty numbered words. No answer
 * changed; CHANGELOG.md says which word became which field. From 2 to 3 both
 * functions take the store's format of sense data; a store of interface 2 is
 * one of interface 3 with the format RIDGE_FIXED. From 3 to 4 the record has
 * attentions at its end; a record of interface 3 with 16 bytes of 0 behind it
 * is one of interface 4. From 4 to 5 a store has marks; one of interface 4 is
 * one of interface 5 with the marks that its owners have.
 *
 * Of the version, the first number rises with the interface, the second when
 * commands or answers are added that leave old callers right, the third when
 * neither changes. CHANGELOG.md says what each version brought. The revision
 * 0100 that INQUIRY returns is the product's, and none of these.
 */
#define RIDGE_INTERFACE 5
#define RIDGE_VERSION_MAJOR 5
#define RIDGE_VERSION_MINOR 0
#define RIDGE_VERSION_PATCH 0
#define RIDGE_VERSION "5.0.0"

/*
 * The most blocks and the most descriptors a host reads from the unit itself:
 * INQUIRY, page B0h.
 */
enum ridge_bound {
    RIDGE_BLOCK_BYTES = 512,    /* bytes of one block, and of one slot */
    RIDGE_SLOTS = 128,          /* most slots a pool may have; least is 1 */
    RIDGE_MARK_WORDS = 2,       /* words of marks, whatever the slots */
    RIDGE_WORD_SLOTS = 64,      /* slots marked in one of them */
    RIDGE_TRANSFER_BLOCKS = 128,/* most blocks of READ, WRITE, WRITE SAME */
    RIDGE_DESCRIPTORS = 16,     /* most UNMAP descriptors considered */
    RIDGE_STATUS_DESCRIPTORS = 32,/* most descriptors GET LBA STATUS tells */
    RIDGE_PLACES = 8,           /* registration places */
    RIDGE_NEXUS_LAST = 15,      /* nexus numbers are 0 to 15 */
    RIDGE_NEXUSES = 16,         /* how many they are */
    RIDGE_SENSE_BYTES = 18,     /* least size of a sense buffer, fixed format */
    RIDGE_DESCRIPTOR_SENSE_BYTES = 20 /* the same, descriptor format */
};

/* Capacity is 1 to this many blocks. */
#define RIDGE_CAPACITY_LAST (UINT64_C(1) << 40)

/*
 * The formats of sense data, by their response codes. A store has one: it is
 * given to ridge_fresh, kept with the store, and given to every ridge_execute.
 * Any other number is part of no valid state: each function answers 11.
 */
enum ridge_format {
    RIDGE_FIXED = 0x70,
    RIDGE_DESCRIPTOR = 0x72
};

/*
 * What can wait for a nexus: that its registration was removed by another's
 * PREEMPT; that its registration, and any reservation, were removed by another's
 * CLEAR; that a reservation for registrants was released, or its type changed.
 * Any other number is part of no valid state.
 */
enum ridge_attention {
    RIDGE_NO_ATTENTION = 0,
    RIDGE_REGISTRATIONS_PREEMPTED = 1, /* 2A/05 */
    RIDGE_RESERVATIONS_PREEMPTED = 2,  /* 2A/03 */
    RIDGE_RESERVATIONS_RELEASED = 3    /* 2A/04 */
};

/*
 * The record of a unit, 168 bytes. Each of them belongs to a field: there is no
 * padding, so that any bytes are a record and each is determined after a call.
 * A field counts in its whole width: a nexus of 2^32 is not nexus 0, a type of
 * 257 is not type 1.
 *
 * A valid state is: the format one of the two; the capacity 1 to 2^40; no owner
 * above the capacity, no two slots of one block; a mark for each slot whose
 * owner is not 0, and no other mark; a place is used exactly if its
 * key is not 0, used places have different nexuses up to 15, unused ones nexus
 * 0; the type is 0 (none, holder 0) or 1, 3, 5, 6 (holder is a registered
 * nexus) or 7, 8 (holder 0, somebody is registered); each attention is 0 to 3,
 * whether its nexus is registered or not. Every generation is valid. In any
 * other state ridge_execute and ridge_room answer 11.
 *
 * Numbers are in the machine's byte order. A file wants an order of its own:
 * the project's host/serve/store.c has one.
 */
struct ridge_place {
    uint64_t nexus;             /* nexus number, 0 in an unused place */
    uint64_t key;               /* its key, 0 in an unused place */
};

struct ridge_rights {
    struct ridge_place places[RIDGE_PLACES]; /* registrations */
    uint64_t holder;            /* nexus number; 0 where no one nexus holds */
    uint32_t generation;        /* 0 follows FFFF_FFFFh */
    uint32_t type;              /* reservation type, 0 for none */
};

struct ridge_unit {
    uint64_t capacity;          /* blocks */
    struct ridge_rights rights; /* registrations and reservation */
    uint8_t attentions[RIDGE_NEXUSES]; /* what waits for each nexus */
};

/*
 * The marks of a pool, 16 bytes: slot i is bit i % 64, counted from the lowest,
 * of words[i / 64]. It is set exactly if owners[i] is not 0; bits of slots that
 * the pool does not have are 0. The library keeps them so; a caller that changes
 * owners by itself changes their marks too.
 */
struct ridge_marks {
    uint64_t words[RIDGE_MARK_WORDS];
};

/*
 * Where each field lies, and how many bytes it has. A compiler that would lay
 * the record out otherwise (an option may make it pack or pad) is refused here;
 * C and C++ from before 2011 cannot say this and take it on trust.
 */
#if defined __cplusplus && __cplusplus >= 201103L
#define RIDGE_HOLDS(fact) static_assert(fact, "ridge.h: not so: " #fact)
#define RIDGE_ALIGNMENT(type) alignof(type)
#elif !defined __cplusplus && defined __STDC_VERSION__
#if __STDC_VERSION__ >= 201112L
#define RIDGE_HOLDS(fact) _Static_assert(fact, "ridge.h: not so: " #fact)
#define RIDGE_ALIGNMENT(type) _Alignof(type)
#endif
#endif

#ifdef RIDGE_HOLDS
#define RIDGE_FIELD(record, field, at, bytes)           \
    RIDGE_HOLDS(offsetof(struct record, field) == at && \
                sizeof(((struct record *)0)->field) == bytes)

RIDGE_FIELD(ridge_place, nexus, 0, 8);
RIDGE_FIELD(ridge_place, key, 8, 8);
RIDGE_HOLDS(sizeof(struct ridge_place) == 16);

RIDGE_FIELD(ridge_rights, places, 0, 128);
RIDGE_FIELD(ridge_rights, holder, 128, 8);
RIDGE_FIELD(ridge_rights, generation, 136, 4);
RIDGE_FIELD(ridge_rights, type, 140, 4);
RIDGE_HOLDS(sizeof(struct ridge_rights) == 144);

RIDGE_FIELD(ridge_unit, capacity, 0, 8);
RIDGE_FIELD(ridge_unit, rights, 8, 144);
RIDGE_FIELD(ridge_unit, attentions, 152, 16);
RIDGE_HOLDS(sizeof(struct ridge_unit) == 168);
RIDGE_HOLDS(RIDGE_ALIGNMENT(struct ridge_unit) == 8);

RIDGE_FIELD(ridge_marks, words, 0, 16);
RIDGE_HOLDS(sizeof(struct ridge_marks) == 16);
RIDGE_HOLDS(RIDGE_ALIGNMENT(struct ridge_marks) == 8);

#undef RIDGE_FIELD
#undef RIDGE_HOLDS
#undef RIDGE_ALIGNMENT
#endif

enum ridge_answer {
    RIDGE_GOOD = 0,
    RIDGE_CODE_NOT_LISTED = 1,
    RIDGE_CDB_FIELD = 2,
    RIDGE_ADDRESS_RANGE = 3,
    RIDGE_LIST_LENGTH = 4,
    RIDGE_LIST_FIELD = 5,
    RIDGE_PLACES_USED = 6,
    RIDGE_RELEASE_TYPE = 7,
    RIDGE_POOL_FULL = 8,
    RIDGE_CONFLICT = 10,
    RIDGE_UNUSABLE = 11,
    RIDGE_BUFFER_SHORT = 12,
    RIDGE_ATTENTION = 13
};

/*
 * Makes a fresh store: no mapping, no registration, no reservation, generation
 * 0, nothing waiting for anybody. It never sees the medium, whose bytes stay as
 * they are (no block is mapped, so none of them can be read).
 *
 *   capacity   blocks, 1 to 2^40
 *   format     of its sense data, RIDGE_FIXED or RIDGE_DESCRIPTOR
 *   unit       written: the fresh record, whatever was there
 *   owners     written: all 0
 *   slots      words of owners, 1 to 128
 *   marks      written: both words 0, whatever they were
 *
 * Answers 0, or 11 for bad bounds or a format that is none; then nothing is
 * changed.
 */
uint64_t ridge_fresh(uint64_t capacity, uint64_t format,
                     struct ridge_unit *unit, uint64_t *owners, size_t slots,
                     struct ridge_marks *marks);

/*
 * Executes one command on a store.
 *
 *   format                  the one with which the store was made
 *   unit                    the unit's record
 *   owners, slots           the map, 1 to 128 slots
 *   marks                   its marks
 *   medium, medium_bytes    the blocks, exactly 512 x slots bytes
 *   nexus                   who sends the command; above 15 is 11
 *   cdb, cdb_bytes          the command descriptor block, read only
 *   data_out,
 *   data_out_bytes          what the initiator sends, read only; extra bytes
 *                           are ignored
 *   data_in, data_in_bytes  room for what goes to the initiator; written only
 *                           on answer 0, and only its first *returned bytes
 *   sense, sense_bytes      room for sense data: at least 18 bytes in the
 *                           fixed format, 20 in the other; less is 11
 *   returned                written always: the bytes of data_in that are
 *                           returned, 0 on every refusal
 *
 * Returns the answer number. Status and sense follow from it by the table.
 */
uint64_t ridge_execute(uint64_t format, struct ridge_unit *unit,
                       uint64_t *owners, size_t slots,
                       struct ridge_marks *marks, uint8_t *medium,
                       size_t medium_bytes, uint64_t nexus,
                       const uint8_t *cdb, size_t cdb_bytes,
                       const uint8_t *data_out, size_t data_out_bytes,
                       uint8_t *data_in, size_t data_in_bytes, uint8_t *sense,
                       size_t sense_bytes, uint64_t *returned);

/*
 * Tells how many slots of a store are free, and which is the lowest of them:
 * the slot that the next new block gets. Both are read off the marks. It is no
 * command: no nexus asks it, no reservation stops it, and what it tells is the
 * pool's, which a nexus that is shut out from reading may not learn.
 *
 *   format, unit, owners,
 *   slots, marks, medium,
 *   medium_bytes            the store, as for ridge_execute; nothing of it is
 *                           written
 *   free_slots              written on answer 0: how many slots are free
 *   lowest_free             written on answer 0: the lowest free slot, counted
 *                           from 0, or the number of slots where none is free
 *
 * Answers 0, or 11 for a store that is out of bounds or in no valid state; then
 * nothing is written.
 */
uint64_t ridge_room(uint64_t format, const struct ridge_unit *unit,
                    const uint64_t *owners, size_t slots,
                    const struct ridge_marks *marks, const uint8_t *medium,
                    size_t medium_bytes, uint64_t *free_slots,
                    uint64_t *lowest_free);

#ifdef __cplusplus
}
#endif

#endif
