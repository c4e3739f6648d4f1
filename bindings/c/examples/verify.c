/* Verifies content by a multihash: verify HEX < CONTENT. The hash functions are those of OpenSSL 3. */
#include "multihash_message.h"
#include "multihash_names.h"

#include <openssl/crypto.h>
#include <openssl/evp.h>
#include <stdio.h>

/* Returns the function of a code, which EVP_MD_free frees, or NULL. */
static EVP_MD *function_of(uint64_t code)
{
    const char *name = multihash_name(code);
    if (code == 0x1014) name = "SHA2-512/224";
    if (code == 0x1015) name = "SHA2-512/256";
    if (code == 0x534d) name = "SM3";
    EVP_MD *function = name == NULL ? NULL : EVP_MD_fetch(NULL, name, NULL);
    if (function == NULL || !(EVP_MD_get_flags(function) & EVP_MD_FLAG_XOF)) return function;
    EVP_MD_free(function); /* SHAKE, which has digests of any length */
    return NULL;
}

/* Writes the digest of a stream to `digest`. Returns its length, or 0 if that fails. */
static unsigned hash_stream(FILE *from, const EVP_MD *function, uint8_t *digest)
{
    uint8_t part[4096];
    size_t got;
    unsigned length = 0;
    EVP_MD_CTX *context = EVP_MD_CTX_new();
    int is_good = context != NULL && EVP_DigestInit_ex2(context, function, NULL);
    while (is_good && (got = fread(part, 1, sizeof part, from)) > 0) is_good = EVP_DigestUpdate(context, part, got);
    is_good = is_good && !ferror(from) && EVP_DigestFinal_ex(context, digest, &length);
    EVP_MD_CTX_free(context);
    return is_good ? length : 0;
}

/* Prints why the content cannot be verified. Returns the status of the program. */
static int fail(const char *reason)
{
    fprintf(stderr, "verify: %s\n", reason);
    return 2;
}

/* Compares the content, on standard input, with a multihash. Returns the status of the program. */
static int verify(const uint8_t *bytes, size_t length)
{
    multihash_decoded found = multihash_from_bytes(bytes, length);
    if (found.status != MULTIHASH_OK) {
        multihash_print_message(stderr, bytes, length, MULTIHASH_DIGEST_MAX);
        return 2;
    }
    EVP_MD *function = function_of(found.code);
    if (function == NULL) return fail("OpenSSL has no hash function of that code");
    uint8_t digest[EVP_MAX_MD_SIZE];
    unsigned size = hash_stream(stdin, function, digest);
    EVP_MD_free(function);
    if (size == 0) return fail("the content cannot be hashed");
    /* a truncated digest is not that of the content */
    int is_same = size == found.digest_length && CRYPTO_memcmp(digest, bytes + found.digest_offset, size) == 0;
    puts(is_same ? "the same" : "another content");
    return is_same ? 0 : 1;
}

int main(int argc, char **argv)
{
    long length = 0;
    uint8_t *bytes = argc == 2 ? OPENSSL_hexstr2buf(argv[1], &length) : NULL;
    if (bytes == NULL) return fail("usage: verify HEX < CONTENT");
    int status = verify(bytes, (size_t)length);
    OPENSSL_free(bytes);
    return status;
}
