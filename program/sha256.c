/* OpenSSL's libcrypto is on nearly every machine and is asked for at run time: neither the build nor an installation needs it. */
#include "sha256.h"

#include <dlfcn.h>
#include <stdio.h>

enum { DIGEST = 32 };

typedef unsigned char *(*digest_function)(const unsigned char *bytes, size_t count, unsigned char *digest);

static digest_function find(void) {
    static const char *const names[] = {"libcrypto.so.3", "libcrypto.so.1.1", "libcrypto.so"};
    for (size_t i = 0; i < sizeof names / sizeof *names; i++) {
        void *library = dlopen(names[i], RTLD_NOW | RTLD_LOCAL);
        void *function = library ? dlsym(library, "SHA256") : NULL;
        if (function)
            return (digest_function)(uintptr_t)function;
    }
    return NULL;
}

bool sha256_of(const uint8_t *bytes, size_t count, char digits[65]) {
    unsigned char digest[DIGEST];
    digest_function sha256 = find();
    digits[0] = '\0';
    if (!sha256 || !sha256(bytes, count, digest))
        return false;
    for (size_t i = 0; i < DIGEST; i++)
        snprintf(digits + 2 * i, 3, "%02x", digest[i]);
    return true;
}
