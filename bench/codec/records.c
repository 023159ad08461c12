/* Records of entries as one would write them by hand in C: what `run` compares with. It decodes and encodes the same records
 * as program.rt.in, and prints the same sum. */
#include <stdint.h>
#include <stdio.h>
#include <stdlib.h>
#include <string.h>

struct inode {
    uint64_t ino, size, mtime;
    uint32_t uid, gid;
    uint16_t mode, target_len;
    uint8_t kind, pin;
    unsigned char *target;
};

enum { FRONT = 40, FILE_KIND = 1, DIR_KIND = 2, LINK_KIND = 3, NO_PIN = 255 };

/* numbers in the machine's own order, which is that of the records */
static uint64_t get(const unsigned char *p, int n)
{
    uint64_t x = 0;
    memcpy(&x, p, n);
    return x;
}

static void put(unsigned char *p, int n, uint64_t x)
{
    memcpy(p, &x, n);
}

/* 1: read; 0: no record; -1: no memory */
__attribute__((noipa)) static int decode(const unsigned char *p, size_t len, struct inode *out)
{
    if (len < FRONT || p[0] != 'I' || p[1] != 2)
        return 0;
    out->kind = p[2];
    out->ino = get(p + 3, 8);
    out->mode = (uint16_t)get(p + 11, 2);
    out->size = get(p + 13, 8);
    out->mtime = get(p + 21, 8);
    out->uid = (uint32_t)get(p + 29, 4);
    out->gid = (uint32_t)get(p + 33, 4);
    out->pin = p[37];
    out->target_len = (uint16_t)get(p + 38, 2);
    out->target = NULL;
    if (len != FRONT + (size_t)out->target_len || out->mode > 4095)
        return 0;
    if (out->ino < 1ull << 40 || out->ino >= 17ull << 40)
        return 0;
    if (out->pin != NO_PIN && (out->kind != DIR_KIND || out->pin >= 16))
        return 0;
    if (out->kind != LINK_KIND)
        return (out->kind == FILE_KIND || (out->kind == DIR_KIND && out->size == 0)) && out->target_len == 0;
    if (out->target_len == 0 || out->target_len > 4095 || out->size != out->target_len || memchr(p + FRONT, 0, out->target_len))
        return 0;
    out->target = malloc(out->target_len);
    if (!out->target)
        return -1;
    memcpy(out->target, p + FRONT, out->target_len);
    return 1;
}

__attribute__((noipa)) static unsigned char *encode(const struct inode *in, size_t *len)
{
    unsigned char *p = malloc(FRONT + in->target_len);
    if (!p)
        return NULL;
    p[0] = 'I';
    p[1] = 2;
    p[2] = in->kind;
    put(p + 3, 8, in->ino);
    put(p + 11, 2, in->mode);
    put(p + 13, 8, in->size);
    put(p + 21, 8, in->mtime);
    put(p + 29, 4, in->uid);
    put(p + 33, 4, in->gid);
    p[37] = in->pin;
    put(p + 38, 2, in->target_len);
    if (in->target_len)
        memcpy(p + FRONT, in->target, in->target_len);
    *len = FRONT + in->target_len;
    return p;
}

int main(int argc, char **argv)
{
    if (argc != 4)
        return 1;
    int copies = strcmp(argv[1], "decode") != 0;
    uint16_t target_len = (uint16_t)atoi(argv[2]);
    unsigned long count = strtoul(argv[3], NULL, 10);
    size_t len = FRONT + target_len;
    unsigned char *bytes = calloc(len, 1);
    uint64_t sum = 0;
    if (!bytes)
        return 1;
    bytes[0] = 'I';
    bytes[1] = 2;
    bytes[2] = target_len ? LINK_KIND : FILE_KIND;
    put(bytes + 3, 8, 1ull << 40);
    put(bytes + 11, 2, 0644);
    put(bytes + 13, 8, target_len);
    bytes[37] = NO_PIN;
    put(bytes + 38, 2, target_len);
    memset(bytes + FRONT, 'x', target_len);
    for (unsigned long i = 0; i < count; i++) {
        struct inode inode;
        int read = decode(bytes, len, &inode);
        if (read < 0)
            return 1;
        if (read) {
            sum += inode.mtime + 1;
            if (copies) {
                free(bytes);
                bytes = encode(&inode, &len);
                if (!bytes)
                    return 1;
            }
            free(inode.target);
        }
        bytes[21] = (unsigned char)sum;
    }
    printf("%llu\n", (unsigned long long)sum);
    free(bytes);
    return 0;
}
