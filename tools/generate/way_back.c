/* Whether the tables in the proved code lead back from a call: it copies octets, and the proved call and main are found
 * above. Linked with --wrap, so that the library calls what is here in place of memcpy and memmove. */
#include <pkcs1_c.h>
#include <unwind.h>

void *__real_memcpy(void *to, const void *from, size_t len);
void *__real_memmove(void *to, const void *from, size_t len);
void *__wrap_memcpy(void *to, const void *from, size_t len);
void *__wrap_memmove(void *to, const void *from, size_t len);
int main(void);

static int may_look, is_call_above, is_main_above;

static _Unwind_Reason_Code look(struct _Unwind_Context *context, void *unused) {
    void *function = _Unwind_FindEnclosingFunction((void *)_Unwind_GetIP(context));
    (void)unused;
    is_call_above |= function == (void *)pkcs1_c_private_key_encode;
    is_main_above |= is_call_above && function == (void *)main;
    return _URC_NO_REASON;
}

/* Who starts the program, and who goes back, may copy octets too. */
static void look_back(void) {
    if (!may_look)
        return;
    may_look = is_call_above = 0;
    _Unwind_Backtrace(look, NULL);
    may_look = 1;
}

void *__wrap_memcpy(void *to, const void *from, size_t len) {
    look_back();
    return __real_memcpy(to, from, len);
}

void *__wrap_memmove(void *to, const void *from, size_t len) {
    look_back();
    return __real_memmove(to, from, len);
}

int main(void) {
    static const uint8_t der[] = {0x30, 40, 2, 1, 1, 2, 1, 1, 2, 1, 2, 2, 1, 3, 2, 1, 4, 2, 1, 5, 2, 1, 6, 2, 1, 7,
                                  2, 1, 8, 0x30, 11, 0x30, 9, 2, 1, 9, 2, 1, 10, 2, 1, 11};
    struct pkcs1_private_key key;
    struct pkcs1_other_prime other;
    uint8_t out[sizeof der];
    size_t len;
    if (pkcs1_private_key_decode(der, sizeof der, &key, &other, 1) != PKCS1_OK)
        return 2;
    may_look = 1;
    if (pkcs1_private_key_encode(&key, &other, 1, out, sizeof out, &len) != PKCS1_OK)
        return 3;
    return is_main_above ? 0 : 1;
}
