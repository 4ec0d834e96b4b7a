/* For the proof a flag is an octet, as callers in other languages may set it to any. */
#include <stdint.h>
typedef uint8_t bool;
enum { false, true };
