/* GnuTLS: gnutls_x509_privkey_import and gnutls_x509_privkey_import_pkcs8, which check a key's numbers too. */
#include "peers.h"
#include <gnutls/gnutls.h>
#include <gnutls/x509.h>

static int write_key(gnutls_x509_privkey_t key, int is_container, uint8_t *to, size_t room, size_t *len) {
    *len = room;
    int status = is_container
                     ? gnutls_x509_privkey_export_pkcs8(key, GNUTLS_X509_FMT_DER, NULL, GNUTLS_PKCS_PLAIN, to, len)
                     : gnutls_x509_privkey_export(key, GNUTLS_X509_FMT_DER, to, len);
    return status < 0 ? NOT_WRITTEN : ACCEPTED;
}

static int either(int is_container, const uint8_t *der, size_t der_len, uint8_t *to, size_t room, size_t *len) {
    gnutls_x509_privkey_t key;
    gnutls_datum_t data = {(uint8_t *)der, (unsigned)der_len};
    if (gnutls_x509_privkey_init(&key) < 0)
        return REJECTED;
    int status = is_container
                     ? gnutls_x509_privkey_import_pkcs8(key, &data, GNUTLS_X509_FMT_DER, NULL, GNUTLS_PKCS_PLAIN)
                     : gnutls_x509_privkey_import(key, &data, GNUTLS_X509_FMT_DER);
    int answer = status >= 0 ? ACCEPTED : REJECTED;
    if (answer && to != NULL)
        answer = write_key(key, is_container, to, room, len);
    gnutls_x509_privkey_deinit(key);
    return answer;
}

static int private_key(const uint8_t *der, size_t der_len, uint8_t *to, size_t room, size_t *len) {
    return either(0, der, der_len, to, room, len);
}

static int pkcs8(const uint8_t *der, size_t der_len, uint8_t *to, size_t room, size_t *len) {
    return either(1, der, der_len, to, room, len);
}

/* By type, in the order of peers.h: the call, and whether it writes too. */
const struct library gnutls = {"GnuTLS",
                               {NULL, private_key, private_key, NULL, NULL, NULL, NULL, pkcs8},
                               {0, 1, 1, 0, 0, 0, 0, 1}};
