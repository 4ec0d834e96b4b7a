/* What is assumed of string.h: memcmp is 0 exactly if all octets are equal, and takes no null. */
#include <stddef.h>
#include <stdint.h>
/*@ requires left != \null && \valid_read(left + (0 .. count - 1));
  @ requires right != \null && \valid_read(right + (0 .. count - 1));
  @ terminates \true; exits \false;
  @ assigns \result \from left[0 .. count - 1], right[0 .. count - 1];
  @ ensures \result == 0 <==> (\forall integer i; 0 <= i < count ==> left[i] == right[i]); */
int memcmp(const uint8_t *left, const uint8_t *right, size_t count);
