/* SG_IO and its companions on a device of the store, as Linux's sg driver has
   them, over the wire to the server. */
#ifndef RIDGE_SG_IO_H
#define RIDGE_SG_IO_H

#include <stdint.h>

/* Gives 0 exactly if the server is there; else -1 and errno. */
int sg_io_try_server(void);

/* ioctl on the device of this nexus: 0 or more, or -1 and errno. */
int sg_io_control(uint32_t nexus, unsigned long request, void *argument);

#endif
