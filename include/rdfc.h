/*
 * rdfc.h - RDF Dataset Canonicalization (RDFC-1.0) in memory
 *
 * SYNOPSIS
 *     #include <rdfc.h>
 *
 *     uint32_t rdfc_run(uint64_t key0, uint64_t key1,
 *                       const uint8_t *words, size_t words_len,
 *                       const uint8_t *first, size_t first_len,
 *                       const uint8_t *second, size_t second_len,
 *                       uint8_t *out, size_t out_len,
 *                       struct rdfc_answer *answer);
 *
 *     cc program.c $(pkg-config --cflags --libs rdfc)
 *
 * DESCRIPTION
 *     rdfc_run() does what the program rdfc does with these words, over bytes in memory: no file is opened, and nothing
 *     is written but *answer and the first out_len bytes at out.
 *
 *     words   The words of the command line, without the program's name, each ended by a byte 0; in C, the literal
 *                 static const char words[] = "hash\0--limit\0" "1000\0first";
 *             has them with sizeof words bytes. A file is called first or second in them, and these are the only names:
 *                 canon first             the canonical form
 *                 hash first              the hash of the canonical form, in hexadecimal digits and a line feed
 *                 map first               each blank node's label, and its canonical one
 *                 ties first              the units of work, and which nodes are tied
 *                 compare first second    the map of the blank nodes of the one file to those of the other
 *                 lean first              a lean graph of the file
 *                 other first             another output that the standard allows
 *                 load 1000               a trial on a document that is made
 *             docs/USAGE.md has all commands and options.
 *
 *     first, second
 *             The bytes of the two files: N-Quads, or TriG where the words have --trig. They are read where they lie
 *             and are not copied as a whole, but for TriG. A command of one file leaves the other unread.
 *
 *     out     Where the output goes. It is written only where it fits whole, and out_len bytes suffice for it; bytes
 *             behind the output are left as they were. The hash is 65 bytes long under SHA-256, and 97 under SHA-384.
 *
 *     key0, key1
 *             The keys of the hashes of all tables that are looked up by what a file states. They change no answer. Who
 *             knows them can write a file whose texts fall together in a table, so that reading it takes long: draw
 *             both from the system's random numbers, as by getrandom(2), once for each process or more often, and tell
 *             nobody. Where all files come from yourself, any two numbers do.
 *
 *     answer  Is overwritten, but for the bytes of note behind the one that ends it; what stood there is not read.
 *
 *     Nothing is kept between calls, and there is no state beside the arguments: calls from several threads at once are
 *     safe, where no memory that one writes is passed to another. Every call returns. Memory that a call takes, by
 *     malloc(3), it has given back by then.
 *
 * RETURN VALUE
 *     The status, as in answer->status:
 *
 *     RDFC_DONE          The output was written, and is the only one that the standard allows for this dataset.
 *                        other: another output was written.
 *     RDFC_DIFFERENT     compare: the datasets are not isomorphic. other: there is no other output. Nothing was written.
 *     RDFC_USAGE         The words are no command. Nothing was written.
 *     RDFC_UNSETTLED     The output was written, but a tie is not settled: another implementation may give another one.
 *                        Do not sign it. other: none was found, and nothing was written.
 *     RDFC_REFUSED       A file is refused: answer->file, answer->cause and answer->line say which, why and where.
 *     RDFC_READ_FAULT    The words name a file by another word than first and second. answer->file says which.
 *     RDFC_WRITE_FAULT   Memory was refused for the output. Nothing was written.
 *     RDFC_WORK_LIMIT    The work is past the limit of the words, for the file answer->file. Nothing was written.
 *     RDFC_NO_MEMORY     Memory was refused. Nothing was written.
 *     RDFC_UNDECIDED     compare: both datasets have ties that are not settled, and their forms differ. Nothing was
 *                        written.
 *     RDFC_NO_ROOM       The run is done or unsettled, but its output has answer->needed bytes, more than out_len.
 *                        Nothing was written; a call with as much room tells which of the two it is.
 *
 *     0 to 9 are the exit statuses of the program.
 *
 * PREMISES
 *     What the caller owes. Nothing checks it, and where it is not kept nothing is promised.
 *
 *     - No pointer is null, not even with a length of 0: pass "" then, or any other address.
 *     - words, first and second have as many readable bytes as their lengths say, and out as many writable ones; no
 *       length is above PTRDIFF_MAX. words, first and second may overlap one another, and may be one; out and *answer
 *       overlap nothing else that is passed.
 *     - While the call runs, nothing else writes what is passed to it, or reads out or *answer.
 *     - malloc, realloc and free are one allocator, which aligns a block to each power of two up to 16 that divides its
 *       size.
 *     - The call is not made from a signal handler, or from the forked child of a process with threads.
 */
#ifndef RDFC_H
#define RDFC_H

#include <stddef.h>
#include <stdint.h>

#ifdef __cplusplus
extern "C" {
#endif

/* Statuses. */
enum {
    RDFC_DONE = 0,
    RDFC_DIFFERENT = 1,
    RDFC_USAGE = 2,
    RDFC_UNSETTLED = 3,
    RDFC_REFUSED = 4,
    RDFC_READ_FAULT = 5,
    RDFC_WRITE_FAULT = 6,
    RDFC_WORK_LIMIT = 7,
    RDFC_NO_MEMORY = 8,
    RDFC_UNDECIDED = 9,
    RDFC_NO_ROOM = 10
};

/* What a file is refused for. */
enum {
    RDFC_CAUSE_NONE = 0,
    RDFC_CAUSE_TOO_LONG = 1,       /* more than 268,435,456 bytes */
    RDFC_CAUSE_NOT_UTF8 = 2,
    RDFC_CAUSE_BAD_LINE = 3,       /* not a line of N-Quads */
    RDFC_CAUSE_RELATIVE_IRI = 4,   /* N-Quads: an IRI without a scheme */
    RDFC_CAUSE_BAD_TRIG = 5,       /* not TriG */
    RDFC_CAUSE_UNKNOWN_PREFIX = 6, /* TriG: a prefix that was not declared */
    RDFC_CAUSE_NO_BASE = 7,        /* TriG: a relative IRI, and no base */
    RDFC_CAUSE_TOO_MANY_QUADS = 8,
    RDFC_CAUSE_NOT_ONE_GRAPH = 9   /* lean: a quad has a graph name */
};

/* The size of rdfc_answer.note. */
#define RDFC_NOTE_SIZE 240

/* What a call tells. */
struct rdfc_answer {
    uint32_t status;   /* RDFC_DONE to RDFC_NO_ROOM */
    uint32_t cause;    /* of RDFC_REFUSED: RDFC_CAUSE_TOO_LONG and on; else 0 */
    uint32_t file;     /* which file of the command the status is about, from 1; 0 where it is about none */
    uint32_t note_len; /* how many bytes of note are the note: at most 239 */
    uint64_t line;     /* of RDFC_REFUSED: the line, from 1, where there is one; else 0 */
    size_t written;    /* how many bytes of out are the output */
    size_t needed;     /* how many bytes the output has, written or not; 0 where there is none */
    /* The line that the program writes to its standard error, with its line feed: UTF-8, cut where it has more than 239
       bytes, and a byte 0 behind it. Empty with RDFC_DONE. */
    char note[RDFC_NOTE_SIZE];
};

uint32_t rdfc_run(uint64_t key0, uint64_t key1,
                  const uint8_t *words, size_t words_len,
                  const uint8_t *first, size_t first_len,
                  const uint8_t *second, size_t second_len,
                  uint8_t *out, size_t out_len,
                  struct rdfc_answer *answer);

#ifdef __cplusplus
}
#endif

#endif
