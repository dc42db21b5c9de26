// What include/loomfinch.h needs of the C library's headers, for x86-64 on any machine.
#ifndef ORACLE_STDDEF_H
#define ORACLE_STDDEF_H
typedef unsigned long size_t;
#endif
