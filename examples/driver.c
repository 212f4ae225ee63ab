/* A driver for a serial port: registers, a ring buffer, interrupts. */
#include <stdint.h>
#include <stddef.h>
#include "serial.h"

#define RING_SIZE   256u
#define RING_MASK (RING_SIZE-1u)
#define REG(port,name)  ((port)->regs[SERIAL_##name])
#define WAIT_FOR(port, bit)                         \
	do {                                        \
		while (!(REG(port, STATUS) & (bit)))\
			cpu_relax();                \
	} while (0)

struct ring {
    uint8_t data[RING_SIZE];
    volatile uint32_t head,tail;
};

struct serial_port
{
	volatile uint32_t *regs;   /* mapped by the bus */
	struct ring receive, transmit;
	unsigned irq:5, open:1, :2;
	void (*on_error)(struct serial_port *port,uint32_t status);
};

static struct serial_port ports[ SERIAL_PORTS ];

static inline int ring_put(struct ring*ring,uint8_t byte)
{
    uint32_t next=(ring->head+1u)&RING_MASK;
    if(next==ring->tail)return -1;
    ring->data[ring->head]=byte;
    ring->head=next;   // the reader sees the byte first
    return 0;
}

static inline int ring_get( struct ring *ring, uint8_t *byte )
{
    if (ring->head == ring->tail)
        return -1;
    *byte = ring->data [ring->tail];
    ring->tail = (ring->tail + 1u) & RING_MASK;
    return 0;
}

static void __attribute__((interrupt)) serial_irq(void *context)
{
  struct serial_port *port=context;
  uint32_t status = REG(port,STATUS);

  while(status & (SERIAL_RX_READY|SERIAL_TX_EMPTY)){
    if(status&SERIAL_RX_READY){
      uint8_t byte=(uint8_t)REG(port, DATA);
      if (status & SERIAL_PARITY_ERROR) {
          if(port->on_error) port->on_error(port,status);
      }
      else if(ring_put(&port->receive,byte)<0)
          REG(port,CONTROL)|=SERIAL_RX_STOP;
    }
    if (status & SERIAL_TX_EMPTY)
    {
        uint8_t byte;
        if(!ring_get(&port->transmit,&byte)) REG(port,DATA)=byte;
        else REG(port, CONTROL) &= ~SERIAL_TX_IRQ;
    }
    status=REG(port,STATUS);
  }
}

int serial_open(unsigned number,uint32_t rate,void(*on_error)(struct serial_port*,uint32_t))
{
    int error=0;
    struct serial_port*port;

    if(number>=SERIAL_PORTS||!rate) return -1;
    port=&ports[number];
    if (port->open) { error = -2; goto out; }
    port->on_error=on_error;
    REG(port,DIVISOR)=(SERIAL_CLOCK+rate/2u)/rate;
    switch(rate){
    case 9600: case 19200:
        REG(port,CONTROL)=SERIAL_SLOW;
        break;
    case 115200: REG(port,CONTROL)=SERIAL_FAST; break;
    default:
        REG(port,CONTROL)=rate>1000000u?SERIAL_FAST|SERIAL_FIFO:SERIAL_SLOW;
    }
    __asm__ volatile("dsb"::: "memory");
    port->open=1;
out:
    return error;
}

size_t serial_write(struct serial_port *port, const void *data, size_t size)
{
    const uint8_t *bytes=data;
    size_t done;

    for(done=0;done<size;done++){
        if(ring_put(&port->transmit,bytes[done])) break;
    }
    REG(port,CONTROL)|=SERIAL_TX_IRQ;
    return done;
}
