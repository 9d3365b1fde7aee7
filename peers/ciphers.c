/* The ciphers of the sessions, by OpenSSL: the five suites of TLS 1.3. */
#include <openssl/evp.h>
#include <string.h>

#include "host.h"

/* CCM is told the lengths of tag and text before it begins, and takes the text at once. */
struct Suite {
    const char *name;
    size_t key, tag;
    int ccm;
    const EVP_CIPHER *(*aead)(void), *(*mask)(void);
};

static const struct Suite suites[] = {
    {"TLS_AES_128_GCM_SHA256", 16, 16, 0, EVP_aes_128_gcm, EVP_aes_128_ecb},
    {"TLS_AES_256_GCM_SHA384", 32, 16, 0, EVP_aes_256_gcm, EVP_aes_256_ecb},
    {"TLS_CHACHA20_POLY1305_SHA256", 32, 16, 0, EVP_chacha20_poly1305, EVP_chacha20},
    {"TLS_AES_128_CCM_SHA256", 16, 16, 1, EVP_aes_128_ccm, EVP_aes_128_ecb},
    {"TLS_AES_128_CCM_8_SHA256", 16, 8, 1, EVP_aes_128_ccm, EVP_aes_128_ecb},
};

static void need(int ok)
{
    if (ok != 1)
        stop(2, "the cipher failed");
}

static const struct Suite *suite_of(const char *name)
{
    for (size_t i = 0; i < sizeof suites / sizeof *suites; i++)
        if (strcmp(name, suites[i].name) == 0)
            return &suites[i];
    stop(2, "a suite that is not known");
}

Keys keys_of(const char *suite, const char *key, const char *iv, const char *sn_key)
{
    Keys keys = {.suite = suite_of(suite)};
    size_t length = keys.suite->key;
    keys.tag = keys.suite->tag;
    if (bytes_of(key, keys.key, sizeof keys.key) != length || bytes_of(sn_key, keys.sn_key, sizeof keys.sn_key) != length)
        stop(2, "a key that is not of %zu bytes", length);
    if (bytes_of(iv, keys.iv, sizeof keys.iv) != sizeof keys.iv)
        stop(2, "an IV that is not of 12 bytes");
    return keys;
}

int is_mask_key(const Keys *keys)
{
    return keys->suite->mask == EVP_chacha20;
}

/* ChaCha20 takes the sample as counter and nonce and turns zeros; AES takes it as its block. */
void mask_of(const Keys *keys, const uint8_t *sample, uint8_t mask[2])
{
    static const uint8_t zeros[16];
    EVP_CIPHER_CTX *ctx = EVP_CIPHER_CTX_new();
    int chacha = is_mask_key(keys), n;
    uint8_t out[32];
    need(EVP_EncryptInit_ex(ctx, keys->suite->mask(), NULL, keys->sn_key, chacha ? sample : NULL));
    need(EVP_CIPHER_CTX_set_padding(ctx, 0));
    need(EVP_EncryptUpdate(ctx, out, &n, chacha ? zeros : sample, 16));
    memcpy(mask, out, 2);
    EVP_CIPHER_CTX_free(ctx);
}

/* A context for a text of so many bytes, to open with a tag or, without one, to seal, the header gone in. */
static EVP_CIPHER_CTX *begin_part(const Keys *keys, uint8_t *tag, const uint8_t *nonce, const uint8_t *header, size_t header_len, int text)
{
    EVP_CIPHER_CTX *ctx = EVP_CIPHER_CTX_new();
    int n, seal = tag == NULL;
    need(EVP_CipherInit_ex(ctx, keys->suite->aead(), NULL, NULL, NULL, seal));
    need(EVP_CIPHER_CTX_ctrl(ctx, EVP_CTRL_AEAD_SET_IVLEN, 12, NULL));
    if (keys->suite->ccm)
        need(EVP_CIPHER_CTX_ctrl(ctx, EVP_CTRL_AEAD_SET_TAG, (int)keys->tag, tag));
    need(EVP_CipherInit_ex(ctx, NULL, NULL, keys->key, nonce, seal));
    if (keys->suite->ccm)
        need(EVP_CipherUpdate(ctx, NULL, &n, NULL, text));
    need(EVP_CipherUpdate(ctx, NULL, &n, header, (int)header_len));
    return ctx;
}

int open_part(const Keys *keys, const uint8_t *nonce, const uint8_t *header, size_t header_len, uint8_t *part, size_t length)
{
    static uint8_t out[ROOM];
    int n, text = (int)(length - keys->tag);
    uint8_t *tag = part + text;
    EVP_CIPHER_CTX *ctx = begin_part(keys, tag, nonce, header, header_len, text);
    int ok = EVP_CipherUpdate(ctx, out, &n, part, text) == 1;
    if (!keys->suite->ccm) {
        need(EVP_CIPHER_CTX_ctrl(ctx, EVP_CTRL_AEAD_SET_TAG, (int)keys->tag, tag));
        ok = ok && EVP_CipherFinal_ex(ctx, out + n, &n) == 1;
    }
    if (ok)
        memcpy(part, out, (size_t)text);
    EVP_CIPHER_CTX_free(ctx);
    return ok;
}

void seal_part(const Keys *keys, const uint8_t *nonce, const uint8_t *header, size_t header_len, uint8_t *part, size_t length)
{
    static uint8_t out[ROOM];
    int n, text = (int)(length - keys->tag);
    EVP_CIPHER_CTX *ctx = begin_part(keys, NULL, nonce, header, header_len, text);
    need(EVP_CipherUpdate(ctx, out, &n, part, text));
    need(EVP_CipherFinal_ex(ctx, out + n, &n));
    memcpy(part, out, (size_t)text);
    need(EVP_CIPHER_CTX_ctrl(ctx, EVP_CTRL_AEAD_GET_TAG, (int)keys->tag, part + text));
    EVP_CIPHER_CTX_free(ctx);
}

size_t seal_record(const Keys *keys, const Expected *r, uint8_t *out, size_t room)
{
    enum { HEADER = 5 };
    size_t length = r->length + 1 + keys->tag;
    uint8_t mask[2], nonce[12];
    if (keys->suite == NULL || length > room - HEADER)
        stop(2, "a record that cannot be sealed");
    memcpy(nonce, keys->iv, sizeof nonce);
    for (int i = 0; i < 8; i++)
        nonce[11 - i] ^= (uint8_t)(r->number >> 8 * i);
    out[0] = (uint8_t)(0x2C | (r->epoch & 3));
    out[1] = (uint8_t)(r->number >> 8);
    out[2] = (uint8_t)r->number;
    out[3] = (uint8_t)(length >> 8);
    out[4] = (uint8_t)length;
    memcpy(out + HEADER, r->content, r->length);
    out[HEADER + r->length] = (uint8_t)r->content_type;
    seal_part(keys, nonce, out, HEADER, out + HEADER, length);
    mask_of(keys, out + HEADER, mask);
    out[1] ^= mask[0];
    out[2] ^= mask[1];
    return HEADER + length;
}
