// What include/loomfinch.h needs of the C library's headers, for x86-64 on any machine.
#ifndef ORACLE_STDINT_H
#define ORACLE_STDINT_H
typedef unsigned char uint8_t;
typedef unsigned short uint16_t;
typedef unsigned long uint64_t;
#endif
