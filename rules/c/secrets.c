/* Examples of the rules of secrets.yaml. */
#include <stdlib.h>
#include <time.h>

static const char *db_password = "correct horse";  /* found: c-password-in-code */
const char *title = "Names";  /* not found: c-password-in-code */

int numbers(void) {
    srand(time(NULL));  /* found: c-numbers-from-the-time */
    srand(seed);  /* not found: c-numbers-from-the-time */
    return rand() % 6;  /* found: c-guessable-numbers */
}

int digests(char *text, unsigned char *out) {
    getrandom(out, 16, 0);  /* not found: c-guessable-numbers */
    MD5(text, 80, out);  /* found: c-weak-digest */
    SHA256(text, 80, out);  /* not found: c-weak-digest */
    EVP_DigestInit(context, EVP_sha1());  /* found: c-weak-digest */
    DES_ecb_encrypt(text, out, schedule, 1);  /* found: c-weak-cipher */
    cipher = EVP_rc4();  /* found: c-weak-cipher */
    cipher = EVP_aes_128_ecb();  /* found: c-cipher-block-by-block */
    cipher = EVP_aes_256_gcm();  /* not found: c-weak-cipher, c-cipher-block-by-block */
    if (memcmp(out, mac, 16) == 0) {  /* found: c-text-compared-until-different */
        return 1;
    }
    return CRYPTO_memcmp(out, mac, 16);  /* not found: c-text-compared-until-different */
}

void connections(SSL_CTX *context, CURL *handle) {
    SSL_CTX_set_verify(context, SSL_VERIFY_NONE, NULL);  /* found: c-certificate-unchecked */
    SSL_CTX_set_verify(context, SSL_VERIFY_PEER, NULL);  /* not found: c-certificate-unchecked */
    curl_easy_setopt(handle, CURLOPT_SSL_VERIFYPEER, 0L);  /* found: c-certificate-unchecked */
    curl_easy_setopt(handle, CURLOPT_SSL_VERIFYHOST, 0L);  /* found: c-host-name-unchecked */
    curl_easy_setopt(handle, CURLOPT_SSL_VERIFYHOST, 2L);  /* not found: c-host-name-unchecked */
    context = SSL_CTX_new(SSLv3_method());  /* found: c-old-tls */
    context = SSL_CTX_new(TLS_method());  /* not found: c-old-tls */
    path = getenv("PATH");  /* found: c-environment-trusted */
    path = getenv("SHOP_NAMES");  /* not found: c-environment-trusted */
}
