/* zonewire for C: DNS zones read from text, printed, put in canonical form, sent and received as zone transfers
 * (AXFR, RFC 5936).
 *
 * The functions are those of the library zonewire, and each is proved to keep the contract that its source states
 * (crates/zonewire_c/src). Link with -lzonewire; it needs the C library and nothing else.
 *
 * Buffers. The caller owns every buffer, and the library keeps nothing between two calls. Octets are passed as a
 * pointer and their number, the length; the pointer may be NULL if the length is 0. The buffer for the output
 * overlaps no other argument.
 *
 * Output. A call that has an output returns its length in `count`. If the buffer is at least so long, the output is
 * at its beginning, and the octets after it are as they were. Otherwise nothing is written. So there are two ways
 * to call: with a buffer that is large enough for all that is expected, and again with a larger one if `count` is
 * more; or first with the length 0, which asks for the size. The work is done anew each time.
 *
 * Faults. A call that fails returns the number of the fault in `fault`, one of `enum zonewire_fault`, and `count`
 * is 0. Then nothing is written either. `zonewire_fault_text` has its text.
 *
 * Memory and threads. A call takes memory by malloc and realloc, and gives all of it back before it returns. Calls
 * may run side by side in several threads. No call may be made in a signal handler, or in the child of a fork of a
 * process with threads. */
#ifndef ZONEWIRE_H
#define ZONEWIRE_H

#include <stddef.h>
#include <stdint.h>

#ifdef __cplusplus
extern "C" {
#endif

/* What a call returns. */
typedef struct zonewire_answer {
    /* One of `enum zonewire_fault`: 0 if the call has an output. */
    uint32_t fault;
    /* What the fault names: the number of an entry of a text or of a record of a stream, counted from 1, or the
     * response code. Otherwise 0. */
    size_t number;
    /* The length of the output in octets, or the number of records (zonewire_count); 0 after a fault. */
    size_t count;
} zonewire_answer;

/* Why a call fails. The first rule that is broken is the one that is reported. From 101 on, the hundreds are a
 * table of docs/ERRORS.md and the rest is its row. "Names" says what `number` is. */
enum zonewire_fault {
    ZONEWIRE_OK = 0,
    ZONEWIRE_OUT_OF_MEMORY = 1,
    ZONEWIRE_BAD_NAME = 2,     /* the origin or the name is not UTF-8, or no name */
    ZONEWIRE_BAD_LAYOUT = 3,   /* no layout has the number */
    ZONEWIRE_BAD_SPELLING = 4, /* no spelling has the number */

    /* The text is not a zone's. */
    ZONEWIRE_ZONE_CLASS_ANY = 101,
    ZONEWIRE_ZONE_TEXT = 102,          /* the entry cannot be parsed; names an entry */
    ZONEWIRE_ZONE_INCLUDE = 103,       /* the entry includes another file; names an entry */
    ZONEWIRE_ZONE_UNTYPED = 104,       /* unknown data that is not data of its type; names an entry */
    ZONEWIRE_ZONE_FIRST_NOT_SOA = 105, /* names an entry */
    ZONEWIRE_ZONE_SECOND_SOA = 106,    /* names an entry */
    ZONEWIRE_ZONE_OUT_OF_ZONE = 107,   /* the owner is not at or under the apex; names an entry */
    ZONEWIRE_ZONE_UNSPELLABLE = 108,   /* the tag of a CAA record is empty; names an entry */
    ZONEWIRE_ZONE_NO_SOA = 109,        /* the text has no record */

    /* The query is not one for a zone's transfer. */
    ZONEWIRE_QUERY_SHORT = 201,
    ZONEWIRE_QUERY_RESPONSE = 202,
    ZONEWIRE_QUERY_OPCODE = 203,
    ZONEWIRE_QUERY_COUNTS = 204,
    ZONEWIRE_QUERY_MALFORMED = 205,
    ZONEWIRE_QUERY_NOT_AXFR = 206,
    ZONEWIRE_QUERY_CLASS_ANY = 207,
    ZONEWIRE_QUERY_TRAILING = 208,

    /* The zone is not sent. */
    ZONEWIRE_SEND_WRONG_ZONE = 302, /* the query asks for another zone */
    ZONEWIRE_SEND_RECORD = 303,     /* the record has room in no message; names a record, the last SOA too */

    /* The stream is not a transfer that answers the query. */
    ZONEWIRE_RECEIVE_SHORT = 402,
    ZONEWIRE_RECEIVE_ID = 403,
    ZONEWIRE_RECEIVE_NOT_RESPONSE = 404,
    ZONEWIRE_RECEIVE_OPCODE = 405,
    ZONEWIRE_RECEIVE_RCODE = 406, /* the server returns an error; names the response code */
    ZONEWIRE_RECEIVE_COUNTS = 407,
    ZONEWIRE_RECEIVE_QUESTION = 408,
    ZONEWIRE_RECEIVE_RECORD = 409, /* the record cannot be parsed; names a record */
    ZONEWIRE_RECEIVE_FIRST_NOT_SOA = 410,
    ZONEWIRE_RECEIVE_CLASS = 411,       /* names a record */
    ZONEWIRE_RECEIVE_OUT_OF_ZONE = 412, /* names a record */
    ZONEWIRE_RECEIVE_SOA_DIFFERS = 413, /* names a record */
    ZONEWIRE_RECEIVE_AFTER_LAST = 414,  /* names a record */
    ZONEWIRE_RECEIVE_UNSPELLABLE = 415, /* names a record */
    ZONEWIRE_RECEIVE_TRAILING = 416,
    ZONEWIRE_RECEIVE_UNFINISHED = 417 /* no rule is broken yet, and the last SOA has not come: read more octets */
};

/* How a zone is printed. */
enum zonewire_layout {
    ZONEWIRE_SIMPLE = 0,   /* one space between two tokens */
    ZONEWIRE_TABBED = 1,   /* a tab between two tokens, but a space within data */
    ZONEWIRE_MULTILINE = 2 /* each token of data on a line of its own, in parentheses, with comments */
};

/* How names are written in messages (RFC 1035 4.1.4). */
enum zonewire_spelling {
    ZONEWIRE_PLAIN = 0,  /* in full */
    ZONEWIRE_STATIC = 1, /* as ZONEWIRE_HASH, but at most 24 suffixes of a message are remembered */
    ZONEWIRE_TREE = 2,   /* with pointers to suffixes that are the same, octet for octet */
    ZONEWIRE_HASH = 3    /* with pointers to suffixes that are the same up to ASCII case */
};

/* The class IN (RFC 1035 3.2.4). A class is any number but 255, ANY. */
#define ZONEWIRE_IN 1

/* In the calls below `text` is the text of a zone file (RFC 1035 5). Its last line ends with a line feed. `origin`
 * is the text of the name that relative names in it are under, with or without its last dot; with the length 0
 * there is none, and every name has to be absolute or come after an $ORIGIN. */

/* Counts the records of the zone of the text. `count` is their number. Fails with ZONEWIRE_BAD_NAME for the origin,
 * and with a fault from ZONEWIRE_ZONE_CLASS_ANY to ZONEWIRE_ZONE_NO_SOA. */
zonewire_answer zonewire_count(const uint8_t *text, size_t text_length, const uint8_t *origin, size_t origin_length,
    uint16_t class_number);

/* Prints the zone of the text in a layout, one of `enum zonewire_layout`. The output is text, each record on its
 * own lines with its TTL and class, and reads back as the same records. Fails with ZONEWIRE_BAD_LAYOUT, otherwise
 * as zonewire_count does. */
zonewire_answer zonewire_print(const uint8_t *text, size_t text_length, const uint8_t *origin, size_t origin_length,
    uint16_t class_number, uint8_t layout, uint8_t *out, size_t out_length);

/* The canonical octets of the zone of the text (RFC 4034 6): its distinct records in canonical form and order. Two
 * zones have the same exactly if they have the same records up to ASCII case in names. Fails as zonewire_count
 * does. */
zonewire_answer zonewire_canonical(const uint8_t *text, size_t text_length,
    const uint8_t *origin, size_t origin_length, uint16_t class_number, uint8_t *out, size_t out_length);

/* The query for the transfer of the zone with this name and class: a message with this ID and all flags clear. Over
 * TCP it is sent after its length in two octets, which are not part of the output. Fails with ZONEWIRE_BAD_NAME. */
zonewire_answer zonewire_query(uint16_t id, const uint8_t *name, size_t name_length, uint16_t class_number,
    uint8_t *out, size_t out_length);

/* The stream that answers a query for the zone of the text: its records in order and the SOA again, in messages of
 * at most `max` octets, each after its length in two octets, as TCP carries them. The query is a message without
 * its length. Names are written in a spelling, one of `enum zonewire_spelling`. Fails with ZONEWIRE_BAD_SPELLING,
 * otherwise as zonewire_count does, otherwise with a fault from ZONEWIRE_QUERY_SHORT to ZONEWIRE_SEND_RECORD. */
zonewire_answer zonewire_send(const uint8_t *text, size_t text_length, const uint8_t *origin, size_t origin_length,
    uint16_t class_number, const uint8_t *query, size_t query_length, uint16_t max, uint8_t spelling,
    uint8_t *out, size_t out_length);

/* Prints the zone whose transfer the stream begins with, as the answer to the query, in a layout. The stream is
 * what TCP carries: messages, each after its length in two octets. What follows the transfer is ignored. Fails with
 * ZONEWIRE_BAD_LAYOUT, otherwise with a fault of the query or from ZONEWIRE_RECEIVE_SHORT on.
 * ZONEWIRE_RECEIVE_UNFINISHED says that the octets so far keep every rule: append those that come next, and call
 * again. Each call reads the stream from its beginning, so let it grow by a part of its length, or to the end of
 * the connection, before the next. */
zonewire_answer zonewire_receive(const uint8_t *query, size_t query_length,
    const uint8_t *stream, size_t stream_length, uint8_t layout, uint8_t *out, size_t out_length);

/* The text of a fault, by the `fault` and the `number` of the answer that has it, without a line feed and without a
 * NUL: at most 64 octets. The output is empty if no fault has the number. Fails with ZONEWIRE_OUT_OF_MEMORY only
 * for a text that names a number. */
zonewire_answer zonewire_fault_text(uint32_t fault, size_t number, uint8_t *out, size_t out_length);

#ifdef __cplusplus
}
#endif

#endif
