/* A plain byte-wise AES-128 and c1 in C, for comparison with the programs of this repository: the same chains as
   crates/speed, by the same arguments, and the same output. Compiled with ON_THE_FLY, a round key is made when it is
   needed; else the key is expanded first (c1 then expands it once for its two blocks). With MBEDTLS, mbedTLS's AES
   takes the place of the cipher. */
#include <stdint.h>
#include <stdio.h>
#include <stdlib.h>
#include <string.h>
#ifdef MBEDTLS
#include <mbedtls/aes.h>
#endif

#ifdef MBEDTLS
typedef mbedtls_aes_context schedule;
static void set_key(schedule *w, const uint8_t key[16]) {
    mbedtls_aes_init(w);
    mbedtls_aes_setkey_enc(w, key, 128);
}
static void cipher(schedule *w, const uint8_t in[16], uint8_t out[16]) {
    mbedtls_aes_crypt_ecb(w, MBEDTLS_AES_ENCRYPT, in, out);
}
#ifdef NO_AESNI
/* The linker puts this in place of the library's test (-Wl,--wrap). */
int __wrap_mbedtls_aesni_has_support(unsigned int what) {
    (void)what;
    return 0;
}
#endif
#else
static uint8_t sbox[256];

static uint8_t xtime(uint8_t x) {
    return (uint8_t)((x << 1) ^ ((x >> 7) * 0x1b));
}

/* The table by the powers of 3 and their inverses. */
static void make_sbox(void) {
    uint8_t p = 1, q = 1;
    do {
        p = (uint8_t)(p ^ xtime(p));
        q ^= (uint8_t)(q << 1);
        q ^= (uint8_t)(q << 2);
        q ^= (uint8_t)(q << 4);
        if (q & 0x80) q ^= 0x09;
        uint8_t x = (uint8_t)(q ^ (q << 1 | q >> 7) ^ (q << 2 | q >> 6) ^ (q << 3 | q >> 5) ^ (q << 4 | q >> 4));
        sbox[p] = x ^ 0x63;
    } while (p != 1);
    sbox[0] = 0x63;
}

static void next_key(uint8_t k[16], uint8_t rcon) {
    k[0] ^= sbox[k[13]] ^ rcon;
    k[1] ^= sbox[k[14]];
    k[2] ^= sbox[k[15]];
    k[3] ^= sbox[k[12]];
    for (int i = 4; i < 16; i++) k[i] ^= k[i - 4];
}

static void sub_shift(const uint8_t s[16], uint8_t t[16]) {
    for (int c = 0; c < 4; c++)
        for (int r = 0; r < 4; r++) t[4 * c + r] = sbox[s[(4 * c + 5 * r) & 15]];
}

static void mix(const uint8_t t[16], uint8_t s[16]) {
    for (int c = 0; c < 16; c += 4) {
        uint8_t a = t[c], b = t[c + 1], d = t[c + 2], e = t[c + 3];
        uint8_t all = a ^ b ^ d ^ e;
        s[c] = a ^ all ^ xtime(a ^ b);
        s[c + 1] = b ^ all ^ xtime(b ^ d);
        s[c + 2] = d ^ all ^ xtime(d ^ e);
        s[c + 3] = e ^ all ^ xtime(e ^ a);
    }
}

static void add(uint8_t s[16], const uint8_t k[16]) {
    for (int i = 0; i < 16; i++) s[i] ^= k[i];
}

#ifdef ON_THE_FLY
typedef struct { uint8_t key[16]; } schedule;
static void set_key(schedule *w, const uint8_t key[16]) { memcpy(w->key, key, 16); }
static void cipher(schedule *w, const uint8_t in[16], uint8_t out[16]) {
    uint8_t k[16], s[16], t[16], rcon = 1;
    memcpy(k, w->key, 16);
    memcpy(s, in, 16);
    add(s, k);
    for (int round = 1; round < 10; round++) {
        next_key(k, rcon);
        rcon = xtime(rcon);
        sub_shift(s, t);
        mix(t, s);
        add(s, k);
    }
    next_key(k, rcon);
    sub_shift(s, out);
    add(out, k);
}
#else
typedef struct { uint8_t w[176]; } schedule;
static void set_key(schedule *w, const uint8_t key[16]) {
    uint8_t rcon = 1;
    memcpy(w->w, key, 16);
    for (int i = 16; i < 176; i += 16) {
        memcpy(w->w + i, w->w + i - 16, 16);
        next_key(w->w + i, rcon);
        rcon = xtime(rcon);
    }
}
static void cipher(schedule *w, const uint8_t in[16], uint8_t out[16]) {
    uint8_t s[16], t[16];
    memcpy(s, in, 16);
    add(s, w->w);
    for (int round = 1; round < 10; round++) {
        sub_shift(s, t);
        mix(t, s);
        add(s, w->w + 16 * round);
    }
    sub_shift(s, out);
    add(out, w->w + 160);
}
#endif
#endif

/* c1 of Vol 3 Part H, 2.2.3: numbers most significant octet first, commands and addresses as on the air. */
static void c1(const uint8_t k[16], const uint8_t r[16], const uint8_t preq[7], const uint8_t pres[7], uint8_t iat,
               const uint8_t ia[6], uint8_t rat, const uint8_t ra[6], uint8_t out[16]) {
    uint8_t p1[16], p2[16] = {0}, x[16], y[16];
    for (int i = 0; i < 7; i++) {
        p1[i] = pres[6 - i];
        p1[7 + i] = preq[6 - i];
    }
    p1[14] = rat;
    p1[15] = iat;
    for (int i = 0; i < 6; i++) {
        p2[4 + i] = ia[5 - i];
        p2[10 + i] = ra[5 - i];
    }
    schedule w;
    set_key(&w, k);
    for (int i = 0; i < 16; i++) x[i] = r[i] ^ p1[i];
    cipher(&w, x, y);
    for (int i = 0; i < 16; i++) x[i] = y[i] ^ p2[i];
    cipher(&w, x, out);
}

static void write_hex(const uint8_t s[16]) {
    for (int i = 0; i < 16; i++) printf("%02x", s[i]);
    printf("\n");
}

int main(int argc, char **argv) {
    long blocks = argc > 1 ? atol(argv[1]) : 0, confirms = argc > 2 ? atol(argv[2]) : 0;
    uint8_t key[16] = {0x2b, 0x7e, 0x15, 0x16, 0x28, 0xae, 0xd2, 0xa6, 0xab, 0xf7, 0x15, 0x88, 0x09, 0xcf, 0x4f, 0x3c};
    uint8_t block[16] = {0x32, 0x43, 0xf6, 0xa8, 0x88, 0x5a, 0x30, 0x8d, 0x31, 0x31, 0x98, 0xa2, 0xe0, 0x37, 0x07, 0x34};
    uint8_t k[16] = {0}, next[16];
    uint8_t r[16] = {0x57, 0x83, 0xD5, 0x21, 0x56, 0xAD, 0x6F, 0x0E, 0x63, 0x88, 0x27, 0x4E, 0xC6, 0x70, 0x2E, 0xE0};
    const uint8_t preq[7] = {0x01, 0x01, 0x00, 0x00, 0x10, 0x07, 0x07}, pres[7] = {0x02, 0x03, 0x00, 0x00, 0x08, 0x00, 0x05};
    const uint8_t ia[6] = {0xA6, 0xA5, 0xA4, 0xA3, 0xA2, 0xA1}, ra[6] = {0xB6, 0xB5, 0xB4, 0xB3, 0xB2, 0xB1};
#ifndef MBEDTLS
    make_sbox();
#endif
    for (long i = 0; i < blocks; i++) {
        schedule w;
        set_key(&w, key);
        cipher(&w, block, next);
        memcpy(key, block, 16);
        memcpy(block, next, 16);
    }
    for (long i = 0; i < confirms; i++) {
        c1(k, r, preq, pres, 1, ia, 0, ra, next);
        memcpy(k, r, 16);
        memcpy(r, next, 16);
    }
    write_hex(block);
    write_hex(r);
    return 0;
}
