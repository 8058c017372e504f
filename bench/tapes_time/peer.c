/* ChaCha20 of libcrypto into fresh memory, and a plain copy into fresh memory, of 2^23 words: the least of several rounds, in microseconds. */
#include <openssl/evp.h>
#include <stdio.h>
#include <stdlib.h>
#include <string.h>
#include <time.h>

static double now(void) {
    struct timespec t;
    clock_gettime(CLOCK_MONOTONIC, &t);
    return t.tv_sec * 1e6 + t.tv_nsec / 1e3;
}

int main(void) {
    const size_t bytes = (size_t)8 << 23;
    const unsigned char key[32] = {7}, iv[16] = {0};
    double cipher = 1e18, copy = 1e18;
    unsigned char *zeros = malloc(bytes);
    memset(zeros, 0, bytes);
    for (int round = 0; round < 5; round++) {
        int done;
        double start = now();
        unsigned char *stream = malloc(bytes);
        EVP_CIPHER_CTX *context = EVP_CIPHER_CTX_new();
        EVP_EncryptInit_ex(context, EVP_chacha20(), NULL, key, iv);
        EVP_EncryptUpdate(context, stream, &done, zeros, (int)bytes);
        double took = now() - start;
        cipher = took < cipher ? took : cipher;
        start = now();
        unsigned char *copied = malloc(bytes);
        memcpy(copied, stream, bytes);
        took = now() - start;
        copy = took < copy ? took : copy;
        if (memcmp(copied, stream, bytes) != 0) return 1;
        EVP_CIPHER_CTX_free(context);
        free(stream);
        free(copied);
    }
    printf("cipher %.0f\ncopy %.0f\n", cipher, copy);
    return 0;
}
