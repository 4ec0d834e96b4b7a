/* libtasn1 with pkcs1.asn: asn1_der_decoding2 with ASN1_DECODE_FLAG_STRICT_DER. It knows types only, so versions, the
 * trailer field and identifiers are compared here. PEERS_MODULE names the module. */
#include "peers.h"
#include <libtasn1.h>
#include <stdio.h>
#include <stdlib.h>
#include <string.h>

static asn1_node module(void) {
    static asn1_node it;
    if (it == NULL) {
        char text[ASN1_MAX_ERROR_DESCRIPTION_SIZE];
        const char *file = getenv("PEERS_MODULE");
        if (asn1_parser2tree(file != NULL ? file : "pkcs1.asn", &it, text) != ASN1_SUCCESS) {
            fprintf(stderr, "%s\n", text);
            exit(2);
        }
    }
    return it;
}

static asn1_node read_as(const char *type, const uint8_t *der, size_t der_len) {
    asn1_node value = NULL;
    if (asn1_create_element(module(), type, &value) != ASN1_SUCCESS)
        exit(2);
    int size = (int)der_len;
    int status = asn1_der_decoding2(&value, der, &size, ASN1_DECODE_FLAG_STRICT_DER, NULL);
    if (status != ASN1_SUCCESS)
        asn1_delete_structure(&value); /* null already: the library frees it on an error */
    return status == ASN1_SUCCESS ? value : NULL;
}

static int is(asn1_node value, const char *field, const void *wanted, size_t size) {
    char got[256];
    int len = sizeof got;
    return asn1_read_value(value, field, got, &len) == ASN1_SUCCESS && (size_t)len == size &&
           memcmp(got, wanted, size) == 0;
}
#define IS_IDENTIFIER(value, field, text) is(value, field, text, sizeof text)

static int is_pss(asn1_node value) {
    return is(value, "trailerField", "\1", 1);
}

static int is_pss_algorithm(asn1_node value) {
    return IS_IDENTIFIER(value, "algorithm", "1.2.840.113549.1.1.10") && is(value, "parameters.trailerField", "\1", 1);
}

static int is_oaep_algorithm(asn1_node value) {
    return IS_IDENTIFIER(value, "algorithm", "1.2.840.113549.1.1.7");
}

static int is_container(asn1_node value) {
    return is(value, "version", "\0", 1) && IS_IDENTIFIER(value, "algorithm.algorithm", "1.2.840.113549.1.1.1") &&
           is(value, "algorithm.parameters", "\5\0", 2);
}

/* The module says that there is another prime if there is a list of them. */
static int is_private_key(asn1_node value) {
    int count = 0;
    int has_others = asn1_number_of_elements(value, "otherPrimeInfos", &count) == ASN1_SUCCESS;
    return is(value, "version", has_others ? "\1" : "\0", 1);
}

static int finish(asn1_node value, int answer, uint8_t *to, size_t room, size_t *len) {
    if (answer && to != NULL) {
        int size = (int)room;
        if (asn1_der_coding(value, "", to, &size, NULL) != ASN1_SUCCESS)
            answer = NOT_WRITTEN;
        else
            *len = (size_t)size;
    }
    asn1_delete_structure(&value);
    return answer;
}

#define CALL(name, type, check)                                                                                       \
    static int name(const uint8_t *der, size_t der_len, uint8_t *to, size_t room, size_t *len) {                      \
        asn1_node value = read_as("PKCS-1." type, der, der_len);                                                      \
        return value == NULL ? REJECTED : finish(value, check, to, room, len);                                        \
    }
CALL(public_key, "RSAPublicKey", 1)
CALL(private_key, "RSAPrivateKey", is_private_key(value))
CALL(pss, "RSASSA-PSS-params", is_pss(value))
CALL(oaep, "RSAES-OAEP-params", 1)
CALL(pss_algorithm, "PSSIdentifier", is_pss_algorithm(value))
CALL(oaep_algorithm, "OAEPIdentifier", is_oaep_algorithm(value))

static int holds_key(asn1_node container) {
    static uint8_t inner[65536];
    int size = sizeof inner;
    if (!is_container(container) || asn1_read_value(container, "privateKey", inner, &size) != ASN1_SUCCESS)
        return 0;
    asn1_node key = read_as("PKCS-1.RSAPrivateKey", inner, (size_t)size);
    int answer = key != NULL && is_private_key(key);
    asn1_delete_structure(&key);
    return answer;
}
CALL(pkcs8, "PrivateKeyInfo", holds_key(value))

/* By type, in the order of peers.h: the call, and whether it writes too. */
const struct library libtasn1 = {"libtasn1",
                                 {public_key, private_key, private_key, pss, pss_algorithm, oaep,
                                  oaep_algorithm, pkcs8},
                                 {1, 1, 1, 1, 1, 1, 1, 1}};
