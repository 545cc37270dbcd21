/* Calls rdfc_run on its happy path, with every status that a caller can bring about, at the edges of `out`, and from
 * four threads at once. Prints what failed, and exits with 1 where anything did. */
#include <rdfc.h>

#include <pthread.h>
#include <stdio.h>
#include <stdlib.h>
#include <string.h>

#define CALLS 200
#define THREADS 4
#define GUARD 0xA5

static int failures;

static void check(int holds, const char *what)
{
    if (!holds) {
        fprintf(stderr, "calls: %s\n", what);
        failures++;
    }
}

/* A call, and what it must tell. */
struct expected {
    const char *shows;
    const char *words;
    size_t words_len;
    const char *first;
    const char *second;
    uint32_t status;
    uint32_t cause;
    uint32_t file;
    uint64_t line;
    const char *out;
    const char *note;
};

#define WORDS(text) text, sizeof(text)

#define ALICE "_:alice <e:knows> _:bob .\n_:bob <e:knows> _:alice .\n"
#define TURNED "_:a <e:p> _:b _:c .\n_:b <e:p> _:c _:a .\n_:c <e:p> _:a _:b .\n"
#define PAIR "_:c14n0 <e:knows> _:c14n1 .\n_:c14n1 <e:knows> _:c14n0 .\n"

static const struct expected table[] = {
    {"canon", WORDS("canon\0first"), ALICE, "", RDFC_DONE, 0, 0, 0, PAIR, ""},
    {"an empty file", WORDS("canon\0first"), "", "", RDFC_DONE, 0, 0, 0, "", ""},
    {"the second file", WORDS("canon\0second"), "no file", "<e:s> <e:p> <e:o> .", RDFC_DONE, 0, 0, 0,
     "<e:s> <e:p> <e:o> .\n", ""},
    {"trig with a base", WORDS("canon\0--trig\0--base\0e:/x\0first"), "<> <p> 1 .", "", RDFC_DONE, 0, 0, 0,
     "<e:/x> <e:/p> \"1\"^^<http://www.w3.org/2001/XMLSchema#integer> .\n", ""},
    {"compare", WORDS("compare\0first\0second"), "_:a <e:p> <e:o> .", "_:b <e:p> <e:o> .", RDFC_DONE, 0, 0, 0,
     "_:a _:b\n", ""},
    {"lean", WORDS("lean\0first"), "<e:s> <e:p> <e:o> .\n<e:s> <e:p> _:b .\n", "", RDFC_DONE, 0, 0, 0,
     "<e:s> <e:p> <e:o> .\n", ""},
    {"not isomorphic", WORDS("compare\0first\0second"), "_:a <e:p> <e:o> .", "", RDFC_DIFFERENT, 0, 0, 0, "",
     "rdfc: not isomorphic\n"},
    {"no words", "", 0, "", "", RDFC_USAGE, 0, 0, 0, "", "rdfc: the words are not a command\n"},
    {"a word that is not ended", "canon\0first", 11, "", "", RDFC_USAGE, 0, 0, 0, "",
     "rdfc: the words are not a command\n"},
    {"words that are not UTF-8", WORDS("canon\0\xff"), "", "", RDFC_USAGE, 0, 0, 0, "",
     "rdfc: the words are not a command\n"},
    {"a word too many", WORDS("canon\0first\0second"), "", "", RDFC_USAGE, 0, 0, 0, "",
     "rdfc: the words are not a command\n"},
    {"an unsettled tie", WORDS("canon\0first"), TURNED, "", RDFC_UNSETTLED, 0, 0, 0, NULL,
     "rdfc: first: a tie is unsettled\n"},
    {"not a line", WORDS("canon\0first"), "<e:s> <e:p> <e:o> .\n<e:s> <e:p> .\n", "", RDFC_REFUSED,
     RDFC_CAUSE_BAD_LINE, 1, 2, "", "rdfc: first:2: not an N-Quads line\n"},
    {"not UTF-8", WORDS("canon\0first"), "\n\n<e:s> <e:p> <e:\xff> .", "", RDFC_REFUSED, RDFC_CAUSE_NOT_UTF8, 1, 3,
     "", "rdfc: first:3: not UTF-8\n"},
    {"no scheme, in the second file", WORDS("compare\0first\0second"), "", "<s> <e:p> <e:o> .", RDFC_REFUSED,
     RDFC_CAUSE_RELATIVE_IRI, 2, 1, "", "rdfc: second:1: IRI without a scheme\n"},
    {"not TriG", WORDS("canon\0--trig\0first"), "<e:s> <e:p> .", "", RDFC_REFUSED, RDFC_CAUSE_BAD_TRIG, 1, 1, "",
     "rdfc: first:1: not TriG\n"},
    {"an unknown prefix", WORDS("canon\0--trig\0first"), "\nx:s x:p x:o .", "", RDFC_REFUSED,
     RDFC_CAUSE_UNKNOWN_PREFIX, 1, 2, "", "rdfc: first:2: unknown prefix\n"},
    {"no base", WORDS("canon\0--trig\0first"), "<s> <e:p> <e:o> .", "", RDFC_REFUSED, RDFC_CAUSE_NO_BASE, 1, 1, "",
     "rdfc: first:1: relative IRI without a base\n"},
    {"not one graph", WORDS("lean\0first"), "<e:s> <e:p> <e:o> <e:g> .", "", RDFC_REFUSED,
     RDFC_CAUSE_NOT_ONE_GRAPH, 1, 0, "", "rdfc: first: a quad has a graph name\n"},
    {"a name that is not lent", WORDS("canon\0third"), "", "", RDFC_READ_FAULT, 0, 1, 0, "",
     "rdfc: third: read failed\n"},
    {"the work limit", WORDS("canon\0--limit\0" "1\0first"), ALICE, "", RDFC_WORK_LIMIT, 0, 1, 0, "",
     "rdfc: first: work limit 1 passed\n"},
    {"undecided", WORDS("compare\0first\0second"), TURNED "<e:x> <e:p> \"1\" .\n", TURNED "<e:x> <e:p> \"2\" .\n",
     RDFC_UNDECIDED, 0, 0, 0, "", "rdfc: undecided\n"},
};

static uint32_t call(const struct expected *e, uint8_t *out, size_t out_len, struct rdfc_answer *answer)
{
    return rdfc_run(1, 2, (const uint8_t *)e->words, e->words_len, (const uint8_t *)e->first, strlen(e->first),
                    (const uint8_t *)e->second, strlen(e->second), out, out_len, answer);
}

/* Whether each of the bytes is one that was put there before the call. */
static int is_untouched(const uint8_t *bytes, size_t len)
{
    for (size_t i = 0; i < len; i++)
        if (bytes[i] != GUARD)
            return 0;
    return 1;
}

static void check_answer(const struct expected *e)
{
    static uint8_t out[4096];
    struct rdfc_answer answer;
    memset(out, GUARD, sizeof out);
    memset(&answer, 0xFF, sizeof answer);
    uint32_t status = call(e, out, sizeof out, &answer);
    check(status == e->status && answer.status == e->status, e->shows);
    check(answer.cause == e->cause && answer.file == e->file && answer.line == e->line, e->shows);
    check(strcmp(answer.note, e->note) == 0 && answer.note_len == strlen(e->note), e->shows);
    check(answer.needed == answer.written, e->shows);
    if (e->out)
        check(answer.written == strlen(e->out) && memcmp(out, e->out, answer.written) == 0, e->shows);
    check(answer.written <= sizeof out && is_untouched(out + answer.written, sizeof out - answer.written), e->shows);
}

/* The same in exactly as much room as the output needs, and in one byte less. */
static void check_room(const struct expected *e)
{
    if (!e->out)
        return;
    size_t len = strlen(e->out);
    struct rdfc_answer answer;
    uint8_t *out = malloc(len + 1);
    memset(out, GUARD, len + 1);
    if (len > 0) {
        check(call(e, out, len - 1, &answer) == RDFC_NO_ROOM && answer.needed == len && answer.written == 0, e->shows);
        check(is_untouched(out, len + 1), e->shows);
    }
    check(call(e, out, len, &answer) == e->status && answer.written == len, e->shows);
    check(memcmp(out, e->out, len) == 0 && is_untouched(out + len, 1), e->shows);
    free(out);
}

/* A note that has more bytes than there is room for is cut. */
static void check_long_note(void)
{
    struct expected e = {"a long note", NULL, 0, "", "", RDFC_READ_FAULT, 0, 1, 0, "", ""};
    char words[1000];
    memset(words, 'w', sizeof words);
    memcpy(words, "canon", 6);
    words[sizeof words - 1] = 0;
    e.words = words;
    e.words_len = sizeof words;
    struct rdfc_answer answer;
    uint8_t out;
    check(call(&e, &out, 0, &answer) == RDFC_READ_FAULT, e.shows);
    check(answer.note_len == RDFC_NOTE_SIZE - 1 && answer.note[RDFC_NOTE_SIZE - 1] == 0, e.shows);
    check(strncmp(answer.note, "rdfc: wwww", 10) == 0 && strlen(answer.note) == RDFC_NOTE_SIZE - 1, e.shows);
}

/* The keys change no answer. */
static void check_keys(void)
{
    const struct expected *e = &table[0];
    uint8_t out[4096];
    struct rdfc_answer answer;
    for (uint64_t key = 1; key; key <<= 7) {
        rdfc_run(key, ~key, (const uint8_t *)e->words, e->words_len, (const uint8_t *)e->first, strlen(e->first),
                 (const uint8_t *)"", 0, out, sizeof out, &answer);
        check(answer.status == RDFC_DONE && answer.written == strlen(e->out) && !memcmp(out, e->out, answer.written),
              "other keys");
    }
}

static void *calls_of_thread(void *unused)
{
    (void)unused;
    size_t wrong = 0;
    for (int i = 0; i < CALLS; i++)
        for (size_t k = 0; k < sizeof table / sizeof *table; k++) {
            const struct expected *e = &table[k];
            uint8_t out[4096];
            struct rdfc_answer answer;
            wrong += call(e, out, sizeof out, &answer) != e->status;
            wrong += strcmp(answer.note, e->note) != 0;
            if (e->out)
                wrong += answer.written != strlen(e->out) || memcmp(out, e->out, answer.written) != 0;
        }
    return wrong ? (void *)"wrong" : NULL;
}

static void check_threads(void)
{
    pthread_t threads[THREADS];
    for (int i = 0; i < THREADS; i++)
        check(pthread_create(&threads[i], NULL, calls_of_thread, NULL) == 0, "a thread was not started");
    for (int i = 0; i < THREADS; i++) {
        void *wrong;
        pthread_join(threads[i], &wrong);
        check(wrong == NULL, "four threads at once");
    }
}

int main(int argc, char **argv)
{
    for (size_t k = 0; k < sizeof table / sizeof *table; k++) {
        check_answer(&table[k]);
        check_room(&table[k]);
    }
    check_long_note();
    check_keys();
    /* With a word, no threads: valgrind takes long over them. */
    (void)argv;
    if (argc == 1)
        check_threads();
    printf("calls: %zu cases, %d failures\n", sizeof table / sizeof *table, failures);
    return failures != 0;
}
