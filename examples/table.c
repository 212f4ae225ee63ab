/* The table of the checksum CRC-32 by half bytes, and the keys of a keypad. */
#include <stdint.h>

static const uint32_t half_bytes[16] = {
    0x00000000,0x1db71064,0x3b6e20c8,0x26d930ac,
    0x76dc4190,0x6b6b51f4,0x4db26158,0x5005713c,
    0xedb88320,0xf00f9344,0xd6d6a3e8,0xcb61b38c,
    0x9b64c2b0,0x86d3d2d4,0xa00ae278,0xbdbdf21c
};

uint32_t checksum(uint32_t sum,const unsigned char*bytes,unsigned long size){
  sum=~sum;
  while(size--){
    sum=half_bytes[(sum^*bytes)&15]^(sum>>4);
    sum=half_bytes[(sum^(*bytes++>>4))&15]^(sum>>4);
  }
  return~sum;
}

struct key { const char*label; unsigned short code; unsigned row:4,column:4; };

const struct key keypad[] = {
    { "1", '1', 0, 0 },{ "2",'2',0,1 },   { "3", '3', 0, 2 }, // first row
    { "4", '4', 1, 0 },{ "5",'5',1,1 },   { "6", '6', 1, 2 },
    { "7", '7', 2, 0 },{ "8",'8',2,1 },   { "9", '9', 2, 2 },
    { .label="*",.code='*',.row=3 }, { .label="0", .code = '0', .row=3, .column =1 },
    { .label = "#", .code='#', .row=3,.column=2, },
    [31] = { "\\\"", L'\'', 15, 15 },
};

const double powers[]={1.,1e1,1e2,1e+3,.1e5,0x1p+10,1e-3f,1E5L};

static const char help[] = "line one\n"
                           "line two\t\"quoted\"\n"
          u8"\u00e4\u00f6\u00fc" "";
