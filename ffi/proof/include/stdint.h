#ifndef STDINT_H
#define STDINT_H
typedef unsigned char uint8_t;
typedef unsigned int uint32_t;
typedef __UINT64_TYPE__ uint64_t;
#define UINT64_MAX ((uint64_t)-1)
#endif
