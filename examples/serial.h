#ifndef SERIAL_H
#define SERIAL_H

/*
 * The registers of the serial port, and the calls of its driver.
 */

#include <stdint.h>

#ifdef __cplusplus
extern "C" {
#endif

#define SERIAL_PORTS    4
#define SERIAL_CLOCK    48000000u       /* Hz */

enum serial_register {
    SERIAL_DATA,
    SERIAL_STATUS,SERIAL_CONTROL,
    SERIAL_DIVISOR = 4
};

/* bits of SERIAL_STATUS */
#define SERIAL_RX_READY       (1u<<0)
#define SERIAL_TX_EMPTY       (1u<<1)
#define SERIAL_PARITY_ERROR   (1u<<2)

/* bits of SERIAL_CONTROL */
#define SERIAL_SLOW     0x00u
#define SERIAL_FAST     0x01u
#define SERIAL_FIFO     0x02u
#define SERIAL_TX_IRQ   0x10u
#define SERIAL_RX_STOP  0x20u

struct serial_port;

typedef void (*serial_error)( struct serial_port *port , uint32_t status );

int    serial_open (unsigned number, uint32_t rate, serial_error on_error);
size_t serial_write(struct serial_port *port, const void *data, size_t size);

/* the rate that a divisor gives, rounded */
static inline uint32_t serial_rate(uint32_t divisor)
{ return divisor?(SERIAL_CLOCK+divisor/2u)/divisor:0u; }

#ifdef __cplusplus
}
#endif

#endif /* SERIAL_H */
