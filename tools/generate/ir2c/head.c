/* Made by tools/generate.sh of the proved library: not to be read, nor changed. PROVENANCE says from what. */
#if defined __GNUC__ || defined __clang__
#pragma GCC diagnostic ignored "-Wunused-parameter"
#pragma GCC diagnostic ignored "-Wunused-function"
#pragma GCC diagnostic ignored "-Wunused-but-set-variable"
#endif
#include <limits.h>
#include <stdint.h>

#if INT_MAX < 0x7fffffff
#error "pkcs1: this code is for machines on which an int has 32 bits or more"
#elif SIZE_MAX != UINTPTR_MAX
#error "pkcs1: this code is for machines on which an address is as long as a size_t"
#endif
#include <string.h>

/* The code is that of a module for x86-64: an address has 64 bits, and the least octet of a number stands first. On
 * another machine an address is held as a number of 64 bits, numbers are read and written in that order, and what
 * stands last here copies the structs of callers. PKCS1_FOREIGN has it so on any machine. */
#if defined _MSC_VER || (defined __BYTE_ORDER__ && __BYTE_ORDER__ == __ORDER_LITTLE_ENDIAN__)
#define LEAST_FIRST
#endif
#if !defined LEAST_FIRST || UINTPTR_MAX != 0xffffffffffffffffu
#undef PKCS1_FOREIGN
#define PKCS1_FOREIGN
#endif

typedef uint8_t u1, u8;
typedef uint16_t u16;
typedef uint32_t u32;
typedef uint64_t u64;
#ifdef __SIZEOF_INT128__
__extension__ typedef unsigned __int128 u128;
#endif

/* What gcc and clang have, and C99 hasn't. PKCS1_PLAIN has it so for any compiler. APART: a function that isn't made part
 * of another. ONCE: one that is, since it is called once. TURNED: the octets of a number in the other order. ZEROS: how
 * many zero bits stand in front of a number. */
#ifndef __GNUC__
#undef PKCS1_PLAIN
#define PKCS1_PLAIN
#endif
#ifndef PKCS1_PLAIN
#define ALIGNED(n) __attribute__((aligned(n)))
#define APART __attribute__((noinline))
#define ONCE __attribute__((always_inline)) inline
#define TRAP() __builtin_trap()
#define TURNED(bits, it) __builtin_bswap##bits(it)
#define ZEROS(bits, it) ((it) ? (u32)((bits) > 32 ? __builtin_clzll(it) - (64 - (bits)) \
                                                  : __builtin_clz((u32)(it)) - (32 - (bits))) : (u32)(bits))
#else
#include <stdlib.h>
#define ALIGNED(n)
#define APART
#define ONCE
#define TRAP() abort()
#define TURNED(bits, it) TURNED_##bits(it)
#define TURNED_16(it) ((u16)((it) << 8 | (it) >> 8))
#define TURNED_32(it) ((u32)TURNED_16((u16)(it)) << 16 | TURNED_16((u16)((it) >> 16)))
#define TURNED_64(it) ((u64)TURNED_32((u32)(it)) << 32 | TURNED_32((u32)((it) >> 32)))
#define ZEROS(bits, it) zeros(bits, it)
static inline u32 zeros(u32 bits, u64 it) { for (; it != 0; it >>= 1) bits--; return bits; }
#endif

/* P: an address. AT: that of an object. OCTETS: what is there. */
#ifdef PKCS1_FOREIGN
typedef u64 P;
#define AT(it) ((P)(uintptr_t)(it))
#define OCTETS(at) ((unsigned char *)(uintptr_t)(at))
#else
typedef unsigned char *P;
#define AT(it) ((P)(it))
#define OCTETS(at) (at)
#endif

/* GET and PUT define what reads and writes a number, as a whole where its order is known, else by its octets. */
#if defined LEAST_FIRST
#define ORDER(type, it) (it)
#elif defined __BYTE_ORDER__
#define ORDER(type, it) ORDER_##type(it)
#define ORDER_u1(it) (it)
#define ORDER_u8(it) (it)
#define ORDER_u16(it) TURNED(16, it)
#define ORDER_u32(it) TURNED(32, it)
#define ORDER_u64(it) TURNED(64, it)
#define ORDER_u128(it) ((u128)ORDER_u64((u64)(it)) << 64 | ORDER_u64((u64)((it) >> 64)))
#define ORDER_P(it) ORDER_u64(it)
#endif
#ifdef ORDER
#define GET(type) static inline type get_##type(P at) { \
    type it; memcpy(&it, OCTETS(at), sizeof it); return ORDER(type, it); }
#define PUT(type) static inline void put_##type(P at, type it) { \
    it = ORDER(type, it); memcpy(OCTETS(at), &it, sizeof it); }
#else
#define GET(type) static inline type get_##type(P at) { \
    type it = 0; for (unsigned i = sizeof it; i > 0; i--) it = (type)(it << 8 | OCTETS(at)[i - 1]); return it; }
#define PUT(type) static inline void put_##type(P at, type it) { \
    for (unsigned i = 0; i < sizeof it; i++) OCTETS(at)[i] = (u8)(it >> 8 * i); }
#endif
#define GET_PART(bits) static inline u64 get_##bits(P at) { \
    u64 it = 0; for (unsigned i = bits / 8; i > 0; i--) it = it << 8 | OCTETS(at)[i - 1]; return it; }
#define PUT_PART(bits) static inline void put_##bits(P at, u64 it) { \
    for (unsigned i = 0; i < bits / 8; i++) OCTETS(at)[i] = (u8)(it >> 8 * i); }

/* Of no octets, as C's own may not be asked with no address. */
static inline void copy(P to, P from, u64 n) { if (n != 0) memcpy(OCTETS(to), OCTETS(from), (size_t)n); }
static inline void move(P to, P from, u64 n) { if (n != 0) memmove(OCTETS(to), OCTETS(from), (size_t)n); }
static inline void fill(P to, u8 with, u64 n) { if (n != 0) memset(OCTETS(to), with, (size_t)n); }
static inline u32 unlike(P a, P b, u64 n) { return n != 0 && memcmp(OCTETS(a), OCTETS(b), (size_t)n) != 0; }
