/* Calls each self test of the library. The status is 0, or the number of the first one that fails. */
#include <stddef.h>

#include "mbedtls/aes.h"
#include "mbedtls/arc4.h"
#include "mbedtls/base64.h"
#include "mbedtls/bignum.h"
#include "mbedtls/camellia.h"
#include "mbedtls/ccm.h"
#include "mbedtls/chacha20.h"
#include "mbedtls/chachapoly.h"
#include "mbedtls/des.h"
#include "mbedtls/gcm.h"
#include "mbedtls/md5.h"
#include "mbedtls/poly1305.h"
#include "mbedtls/ripemd160.h"
#include "mbedtls/sha1.h"
#include "mbedtls/sha256.h"
#include "mbedtls/sha512.h"
#include "mbedtls/xtea.h"

static int (*const tests[])(int) = {
    mbedtls_md5_self_test, mbedtls_ripemd160_self_test, mbedtls_sha1_self_test, mbedtls_sha256_self_test, mbedtls_sha512_self_test,
    mbedtls_arc4_self_test, mbedtls_des_self_test, mbedtls_aes_self_test, mbedtls_gcm_self_test, mbedtls_ccm_self_test, mbedtls_base64_self_test,
    mbedtls_mpi_self_test, mbedtls_xtea_self_test, mbedtls_camellia_self_test, mbedtls_chacha20_self_test, mbedtls_poly1305_self_test,
    mbedtls_chachapoly_self_test,
};

int ignore_text(const char *form, ...)
{
    (void)form;
    return 0;
}

int ignore_text_of_size(char *text, size_t size, const char *form, ...)
{
    (void)form;
    if (size)
        *text = 0;
    return 0;
}

int main(void)
{
    for (unsigned number = 0; number < sizeof tests / sizeof *tests; number++)
        if (tests[number](0))
            return number + 1;
    return 0;
}
