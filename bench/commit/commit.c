/* The write of a commit as one would write it by hand in C: what `run` compares with. It makes the same names dirty as
 * program.rt.in, and encodes the same write: a header, and an array of keys and records in the order of the keys, each with
 * memory of its own. */
#include <stdint.h>
#include <stdio.h>
#include <stdlib.h>
#include <string.h>

struct inode {
    uint64_t ino, size, mtime;
    uint32_t uid, gid;
    uint16_t mode, target_len;
    uint8_t kind, pin;
    const unsigned char *target;
};

struct dirty {
    unsigned char *name;
    uint8_t name_len, present;
    struct inode inode;
};

struct bytes {
    unsigned char *at;
    size_t len;
};

struct pair {
    struct bytes key, value;
};

struct op {
    struct bytes header;
    struct pair *set;
    size_t len, room;
};

enum { FRONT = 40, HEADER = 26, FILE_KIND = 1, DIR_KIND = 2, NO_PIN = 255 };

/* numbers in the machine's own order, which is that of the records */
static void put(unsigned char *p, int n, uint64_t x)
{
    memcpy(p, &x, n);
}

static unsigned char *need(void *p)
{
    if (!p)
        exit(1);
    return p;
}

__attribute__((noipa)) static struct bytes record_of(const struct inode *in)
{
    struct bytes b = {need(malloc(FRONT + in->target_len)), FRONT + in->target_len};
    b.at[0] = 'I';
    b.at[1] = 2;
    b.at[2] = in->kind;
    put(b.at + 3, 8, in->ino);
    put(b.at + 11, 2, in->mode);
    put(b.at + 13, 8, in->size);
    put(b.at + 21, 8, in->mtime);
    put(b.at + 29, 4, in->uid);
    put(b.at + 33, 4, in->gid);
    b.at[37] = in->pin;
    put(b.at + 38, 2, in->target_len);
    if (in->target_len)
        memcpy(b.at + FRONT, in->target, in->target_len);
    return b;
}

static struct bytes key_of(const struct dirty *d)
{
    struct bytes b = {need(malloc(d->name_len + 5)), d->name_len + 5};
    memcpy(b.at, d->name, d->name_len);
    memcpy(b.at + d->name_len, "_head", 5);
    return b;
}

static int order(struct bytes a, struct bytes b)
{
    int c = memcmp(a.at, b.at, a.len < b.len ? a.len : b.len);
    return c ? c : (a.len > b.len) - (a.len < b.len);
}

/* puts a pair in at its place, which a binary search finds: keys needn't come in the order of the names */
__attribute__((noipa)) static void set(struct op *op, struct bytes key, struct bytes value)
{
    if (op->len == op->room) {
        op->room = op->room ? 2 * op->room : 4;
        op->set = (struct pair *)need(realloc(op->set, op->room * sizeof *op->set));
    }
    size_t low = 0, high = op->len;
    while (low < high) {
        size_t middle = low + (high - low) / 2;
        if (order(op->set[middle].key, key) < 0)
            low = middle + 1;
        else
            high = middle;
    }
    memmove(op->set + low + 1, op->set + low, (op->len - low) * sizeof *op->set);
    op->set[low] = (struct pair){key, value};
    op->len++;
}

__attribute__((noipa)) static void encode(struct op *op, const struct dirty *names, size_t count)
{
    uint64_t dirs = 0, files = 0;
    for (size_t i = 0; i < count; i++) {
        dirs += names[i].present && names[i].inode.kind == DIR_KIND;
        files += names[i].present && names[i].inode.kind != DIR_KIND;
    }
    op->header = (struct bytes){need(malloc(HEADER)), HEADER};
    op->header.at[0] = 'F';
    op->header.at[1] = 1;
    put(op->header.at + 2, 8, 1);
    put(op->header.at + 10, 8, files);
    put(op->header.at + 18, 8, dirs);
    for (size_t i = 0; i < count; i++)
        if (names[i].present) {
            struct bytes key = key_of(names + i);
            set(op, key, record_of(&names[i].inode));
        }
}

static void add(uint64_t *sum, struct bytes b)
{
    for (size_t i = 0; i < b.len; i++)
        *sum = *sum * 31 + b.at[i];
}

int main(int argc, char **argv)
{
    if (argc != 3)
        return 1;
    size_t count = strtoul(argv[2], NULL, 10);
    struct dirty *names = (struct dirty *)need(malloc(count * sizeof *names + 1));
    for (size_t i = 0; i < count; i++) {
        names[i] = (struct dirty){need(malloc(8)), 8, 1, {(1ull << 40) + i, i, 7, 0, 0, 0644, 0, FILE_KIND, NO_PIN, NULL}};
        for (int k = 0; k < 8; k++)
            names[i].name[k] = (unsigned char)('a' + (i >> (4 * (7 - k))) % 16);
    }
    struct op op = {{NULL, 0}, NULL, 0, 0};
    uint64_t sum = 1;
    if (strcmp(argv[1], "make") != 0) {
        encode(&op, names, count);
        sum = op.len;
    }
    if (strcmp(argv[1], "show") == 0) {
        sum = 0;
        add(&sum, op.header);
        for (size_t i = 0; i < op.len; i++) {
            add(&sum, op.set[i].key);
            add(&sum, op.set[i].value);
        }
    }
    printf("%llu\n", (unsigned long long)sum);
    for (size_t i = 0; i < op.len; i++) {
        free(op.set[i].key.at);
        free(op.set[i].value.at);
    }
    free(op.set);
    free(op.header.at);
    for (size_t i = 0; i < count; i++)
        free(names[i].name);
    free(names);
    return 0;
}
