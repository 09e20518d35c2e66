/*
 * What other languages call of the Bravolith track conditions box. The functions are proved: for every input each puts exactly
 * the bytes that its definition gives, and nothing else. docs/FORMATS.md, installed as share/doc/bravolith/FORMATS.md, says byte by
 * byte what inputs and outputs are.
 *
 * Link libexports.a (tools/library), or the same library as it is installed, libbravolith.a (tools/install PREFIX). It is for
 * x86-64 Linux: ELF, the calling convention of System V, and no instruction beyond those that every x86-64 processor has. Of a C
 * library it takes memcpy, memmove and memset alone, so that glibc, musl or any other one will do; it allocates no memory, reads and
 * writes no file, and keeps no variable. It is tried with gcc and glibc. Any thread may call at any time.
 *
 * Each function takes an input and a lent buffer, as pointer and length, which must not overlap; bravolith_list_length and
 * bravolith_word take an input alone. Where a length is 0 its pointer may be null. All but those two and bravolith_write put the
 * output's first bytes into the buffer, as far as the buffer reaches, leave the bytes past them alone, and answer how many bytes they
 * put. An answer that is less than the buffer's length says that all of the output is there; where it is the buffer's whole length,
 * some of it may be missing: lend a longer buffer, or one of the length that is always enough, and of a listing ask
 * bravolith_list_length. The lengths that are always enough are proved. Each call takes a whole input and begins with a fresh desk,
 * listener or record: no function keeps anything between two calls, and none fails. Each takes less than 12 KB of stack, and
 * bravolith_list_length some 20 KB, as measured.
 */
#ifndef BRAVOLITH_H
#define BRAVOLITH_H

#include <stddef.h>
#include <stdint.h>

#ifdef __cplusplus
extern "C" {
#endif

/*
 * The lines of so many telegrams, which one listener hears from a fresh start, have at most so many bytes: 639 for each five of them,
 * since a table needs five, and 11 for each one over.
 */
#define BRAVOLITH_LINES_ROOM(telegrams) ((telegrams) / 5 * 639 + (telegrams) % 5 * 11)

/* So many bytes are always enough for the listing of a recording of this length: 49 more. */
#define BRAVOLITH_LIST_ROOM(recording_length) (BRAVOLITH_LINES_ROOM((recording_length) / 26) + 49)

/*
 * The listing of a recording of telegrams of 26 bytes, one after another, as the program list_conditions writes it: the line
 * "conditions 1", for each table taken a line and one for each condition, "refused N" for each refused telegram and for a short
 * tail, and "end T". BRAVOLITH_LIST_ROOM(recording_length) bytes are always enough: 639 for each five telegrams, 11 for each one over,
 * and 49 more.
 */
size_t bravolith_list(const uint8_t *recording, size_t recording_length, uint8_t *out, size_t out_length);

/*
 * How many bytes that listing has, so that one that fits its buffer exactly is told from one that was cut. It takes as long as the
 * listing itself. Of a recording of more than 2^61 bytes the answer may be the greatest size_t for a longer listing.
 */
size_t bravolith_list_length(const uint8_t *recording, size_t recording_length);

/*
 * The lines that such a listing has for telegrams of any length, 0 to 65,535 bytes, each after its length in two bytes, high first,
 * which one fresh listener hears: for each table taken a line and one for each condition, "refused N" for each refused telegram,
 * nothing for the others, and "short telegram" where the input ends inside a telegram. BRAVOLITH_LINES_ROOM(n) + 15 bytes for n
 * telegrams are always enough.
 */
size_t bravolith_hear(const uint8_t *telegrams, size_t telegrams_length, uint8_t *out, size_t out_length);

/*
 * The tables of a fresh desk that is handed lists, each after its length in two bytes, high first: for each list that is accepted
 * the table as five telegrams, packets 3 to 7, 130 bytes, as the program run_desk writes them to standard output. 130 bytes for
 * each list are always enough.
 */
size_t bravolith_run(const uint8_t *lists, size_t lists_length, uint8_t *out, size_t out_length);

/*
 * The lines on the same lists: "refused N at list I" for each list that is refused, and "short list" where the input ends inside a
 * list, as run_desk writes them to standard error. 64 bytes for each list, and 11 more, are always enough.
 */
size_t bravolith_run_lines(const uint8_t *lists, size_t lists_length, uint8_t *out, size_t out_length);

/*
 * One packet of the table of the desk that these lists leave, written into a buffer of any length: a list that is refused leaves the
 * desk as it was, and so does an input's tail that is no whole list; with no list at all it is a fresh desk's table. The answer is 0
 * where the packet is written, and then all 26 bytes are; 9 where the packet is not 3 to 7; 10 where the buffer is not 26 bytes. A
 * refused call changes no byte.
 */
uint8_t bravolith_write(const uint8_t *lists, size_t lists_length, uint8_t packet, uint8_t *out, size_t out_length);

/*
 * The lines of calls with train telegrams, each a length in two bytes, high first, and so many bytes; the length FFFFh, with
 * nothing after it, is a call with no telegram. One line a call, and "short call" where the input ends inside a call, as the
 * program read_signals writes them. 256 bytes for each call, and 11 more, are always enough.
 */
size_t bravolith_signals(const uint8_t *calls, size_t calls_length, uint8_t *out, size_t out_length);

/* What bravolith_word answers. */
enum {
    BRAVOLITH_OTHER = 0,
    BRAVOLITH_HEADER = 1,  /* "conditions 1" and a line feed */
    BRAVOLITH_NEW = 2,     /* "new" */
    BRAVOLITH_CARRIED = 3, /* "carried" */
    BRAVOLITH_REFUSED = 4  /* "refused" and a blank */
};

/* Which of the fixed words of a listing a text is, byte by byte. */
uint8_t bravolith_word(const uint8_t *word, size_t word_length);

/*
 * The library itself takes no null pointer, not even with length 0. So the names above mean the functions below, which hand over a
 * pointer to a byte of their own where a length is 0. Who calls the library without this header hands over such a pointer himself.
 */
static inline size_t bravolith_lent_list(const uint8_t *recording, size_t recording_length, uint8_t *out, size_t out_length)
{
    uint8_t none = 0;
    return bravolith_list(recording_length ? recording : &none, recording_length, out_length ? out : &none, out_length);
}

static inline size_t bravolith_lent_list_length(const uint8_t *recording, size_t recording_length)
{
    uint8_t none = 0;
    return bravolith_list_length(recording_length ? recording : &none, recording_length);
}

static inline size_t bravolith_lent_hear(const uint8_t *telegrams, size_t telegrams_length, uint8_t *out, size_t out_length)
{
    uint8_t none = 0;
    return bravolith_hear(telegrams_length ? telegrams : &none, telegrams_length, out_length ? out : &none, out_length);
}

static inline size_t bravolith_lent_run(const uint8_t *lists, size_t lists_length, uint8_t *out, size_t out_length)
{
    uint8_t none = 0;
    return bravolith_run(lists_length ? lists : &none, lists_length, out_length ? out : &none, out_length);
}

static inline size_t bravolith_lent_run_lines(const uint8_t *lists, size_t lists_length, uint8_t *out, size_t out_length)
{
    uint8_t none = 0;
    return bravolith_run_lines(lists_length ? lists : &none, lists_length, out_length ? out : &none, out_length);
}

static inline uint8_t bravolith_lent_write(const uint8_t *lists, size_t lists_length, uint8_t packet, uint8_t *out, size_t out_length)
{
    uint8_t none = 0;
    return bravolith_write(lists_length ? lists : &none, lists_length, packet, out_length ? out : &none, out_length);
}

static inline size_t bravolith_lent_signals(const uint8_t *calls, size_t calls_length, uint8_t *out, size_t out_length)
{
    uint8_t none = 0;
    return bravolith_signals(calls_length ? calls : &none, calls_length, out_length ? out : &none, out_length);
}

static inline uint8_t bravolith_lent_word(const uint8_t *word, size_t word_length)
{
    uint8_t none = 0;
    return bravolith_word(word_length ? word : &none, word_length);
}

#define bravolith_list bravolith_lent_list
#define bravolith_list_length bravolith_lent_list_length
#define bravolith_hear bravolith_lent_hear
#define bravolith_run bravolith_lent_run
#define bravolith_run_lines bravolith_lent_run_lines
#define bravolith_write bravolith_lent_write
#define bravolith_signals bravolith_lent_signals
#define bravolith_word bravolith_lent_word

#ifdef __cplusplus
}
#endif

#endif
