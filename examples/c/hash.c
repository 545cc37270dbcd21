/* Prints the hash of the canonical form of a file of N-Quads.
 *
 *     cc hash.c $(pkg-config --cflags --libs rdfc) -o hash && ./hash FILE
 */
#define _DEFAULT_SOURCE
#include <rdfc.h>

#include <stdio.h>
#include <stdlib.h>
#include <sys/random.h>

static uint8_t *read_whole(const char *name, size_t *len)
{
    FILE *file = fopen(name, "rb");
    if (!file)
        return NULL;
    size_t room = 65536;
    uint8_t *bytes = malloc(room);
    *len = 0;
    while (bytes) {
        size_t count = fread(bytes + *len, 1, room - *len, file);
        *len += count;
        if (count == 0)
            break;
        if (*len == room) {
            uint8_t *more = realloc(bytes, room *= 2);
            if (!more)
                free(bytes);
            bytes = more;
        }
    }
    if (bytes && ferror(file)) {
        free(bytes);
        bytes = NULL;
    }
    fclose(file);
    return bytes;
}

int main(int argc, char **argv)
{
    static const char words[] = "hash\0first";
    uint64_t keys[2];
    uint8_t out[65];
    struct rdfc_answer answer;
    size_t len;

    if (argc != 2 || getentropy(keys, sizeof keys) != 0) {
        fputs("usage: hash FILE\n", stderr);
        return RDFC_USAGE;
    }
    uint8_t *file = read_whole(argv[1], &len);
    if (!file) {
        perror(argv[1]);
        return RDFC_READ_FAULT;
    }
    rdfc_run(keys[0], keys[1], (const uint8_t *)words, sizeof words, file, len, (const uint8_t *)"", 0, out, sizeof out,
             &answer);
    free(file);
    fwrite(out, 1, answer.written, stdout);
    fputs(answer.note, stderr);
    return (int)answer.status;
}
