/* What SCSI leaves to the transport and iSCSI has no field for, read off the CDB:
   how many of the bytes that were carried are the command's, and how many bytes
   of data-out it asks for. Nothing here decides an answer. */
#ifndef RIDGE_TRANSFER_H
#define RIDGE_TRANSFER_H

#include <stddef.h>
#include <stdint.h>

size_t transfer_cdb_bytes(const uint8_t *cdb, size_t carried);

/* Of the commands that the store serves; 0 of others. */
uint64_t transfer_data_out_bytes(const uint8_t *cdb);

#endif
