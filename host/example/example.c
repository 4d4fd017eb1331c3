/* How to link the store: make one, write a block, read it back, ask past the
   end and see which address was refused; ask for the room before a batch of new
   blocks; remove another's registration, and see it told. On x86-64, after
   `rt staticlib ridge`:
     gcc -Ihost/include host/example/example.c target/staticlib/libridge.a */
#include <stdio.h>
#include <string.h>

#include "ridge.h"

/* Descriptor sense has room for every address; fixed sense for 32 bits. */
static const uint64_t format = RIDGE_DESCRIPTOR;
static struct ridge_unit unit;
static uint64_t owners[2];
static struct ridge_marks marks;
static uint8_t medium[2 * RIDGE_BLOCK_BYTES];
static uint8_t block[RIDGE_BLOCK_BYTES], data_in[RIDGE_BLOCK_BYTES];
static uint8_t sense[RIDGE_DESCRIPTOR_SENSE_BYTES];

/* Sends a command of ten bytes and tells the answer. */
static void send(uint64_t nexus, const char *name, const uint8_t *cdb,
                 const uint8_t *data_out, size_t data_out_bytes)
{
    uint64_t returned;
    uint64_t answer = ridge_execute(
        format, &unit, owners, 2, &marks, medium, sizeof medium, nexus, cdb, 10,
        data_out, data_out_bytes, data_in, sizeof data_in, sense, sizeof sense,
        &returned);
    printf("nexus %d, %s: answer %d, %d bytes returned\n", (int)nexus, name,
           (int)answer, (int)returned);
}

/* READ(10) or WRITE(10) of one block. */
static void move(uint64_t nexus, const char *name, uint8_t code, uint8_t address)
{
    const uint8_t cdb[10] = {code, [5] = address, [8] = 1};
    send(nexus, name, cdb, block, sizeof block);
}

/* What a gateway does: it sends a batch of new blocks only if the pool has room
   for all of it. The room is asked of the store, by no nexus and no command; where
   no slot is free, the lowest is told as the number of slots. */
static void batch(const char *name, uint8_t first, uint8_t blocks)
{
    uint64_t free_slots = 0, lowest_free = 0;
    uint64_t answer = ridge_room(format, &unit, owners, 2, &marks, medium,
                                 sizeof medium, &free_slots, &lowest_free);
    int fits = answer == RIDGE_GOOD && free_slots >= blocks;
    printf("%s, room: answer %d, free %d, lowest %d; %s\n", name, (int)answer,
           (int)free_slots, (int)lowest_free, fits ? "sent" : "kept back");
    for (uint8_t sent = 0; fits && sent < blocks; sent++)
        move(0, "WRITE of a new block", 0x2A, (uint8_t)(first + sent));
}

/* REGISTER (0) or PREEMPT (4), with the sender's key and that of the action. */
static void reserve_out(uint64_t nexus, const char *name, uint8_t action,
                        uint8_t key, uint8_t action_key)
{
    const uint8_t cdb[10] = {0x5F, action, 1, [8] = 24};
    const uint8_t list[24] = {[7] = key, [15] = action_key};
    send(nexus, name, cdb, list, sizeof list);
}

int main(void)
{
    uint64_t made = ridge_fresh(8, format, &unit, owners, 2, &marks);
    uint64_t address = 0;
    printf("fresh store of 8 blocks and 2 slots: answer %d\n", (int)made);
    memcpy(block, "snow load 1.7 kN/m2", 20);
    move(0, "WRITE of block 7", 0x2A, 7);
    move(0, "READ of block 7", 0x28, 7);
    printf("read: %s\n", (const char *)data_in);
    move(0, "READ of block 8", 0x28, 8);
    for (int byte = 12; byte < 20; byte++)
        address = address << 8 | sense[byte];
    printf("sense: key %02X, codes %02X %02X, address %d\n", sense[1], sense[2],
           sense[3], (int)address);

    batch("batch of 2 new blocks", 0, 2);
    batch("batch of 1 new block", 0, 1);
    batch("batch of 1 new block", 1, 1);

    reserve_out(0, "REGISTER", 0, 0, 0xA0);
    reserve_out(1, "REGISTER", 0, 0, 0xA1);
    reserve_out(0, "PREEMPT of the other", 4, 0xA0, 0xA1);
    move(1, "READ of block 7", 0x28, 7);
    printf("sense: key %02X, codes %02X %02X\n", sense[1], sense[2], sense[3]);
    move(1, "READ of block 7", 0x28, 7);
    return 0;
}
