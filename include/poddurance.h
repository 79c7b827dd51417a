/* Poddurance: reading Paimon's bitmap indexes and deletion files so that a lost row is a refusal.
 *
 * Link the archive that `tools/archive poddurance` writes to target/staticlib/libpoddurance.a (x86-64 Linux).
 * Every call ends, reads and writes only inside the buffers it is lent, allocates nothing and keeps no state.
 * A buffer that is written must not overlap another of the call. A pointer may not be NULL, even where its length is 0. Each count, start and length is
 * written to a uint64_t of its own, the fault to a poddurance_fault and the record to a poddurance_record, aligned as the compiler aligns them, distinct from
 * the others of the call and outside its buffers. A table is a buffer of uint32_t, aligned likewise, and its length counts words.
 *
 * A row field for n rows is the first (n + 7) / 8 bytes of a buffer: row r is the bit of weight 1 << (r % 8) in byte r / 8, and the spare bits of its
 * last byte are 0. Bytes of the buffer behind the field never change.
 *
 * Each function answers 0 when it accepts, 255 for ABSENT (Locate and Ask of a file), and otherwise the number of its refusal:
 *
 *    1 SHORT     the bytes end inside a field that is due, outside bitmaps
 *    2 MAGIC     the magic of an index file or a bin differs; for Read deletions that of a 64-bit bin does too, which Read window reads
 *    3 VERSION   the version of an index file, a body or a deletion file is unknown; for Open and Look up: the body's is not 2
 *    4 HEAD      the head of an index file breaks a rule
 *    5 DICT      a dictionary breaks a rule
 *    6 BITMAP    place, length or form of a bitmap is wrong; carries the entry and the container
 *    7 RANGE     a row at or above the row count, not through a window; carries the entry
 *    8 TWICE     a row already placed; carries the entry that places it again
 *    9 MISSING   a row never placed; carries the lowest one
 *   10 ROOM      a lent field has fewer than (n + 7) / 8 bytes; for Open and Look up also: the table has fewer words than the body has blocks
 *   11 LITERAL   literals don't fit question and type, or a name can't be asked for (it is not standard UTF-8, or too long); also: a type, an edition or a
 *                question is unknown
 *   12 LIMIT     a limit is passed (an input buffer or a row count above 2147483647, a window that ends above 2^63, and others)
 *   13 CHECKSUM  the checksum of a bin differs
 *   14 NOBIN     the bin number is not below the number of bins
 *
 * What a refusal carries is written to the call's poddurance_fault; refusals listed without 'carries' carry nothing.
 *
 * With any answer but 0 the counts, the record's four among them, start and length are 0. Refusals up to and including ROOM leave the field's buffer as it was;
 * later ones leave the field's (n + 7) / 8 bytes zero. A refused Open leaves the table as it was. In the order in which causes are tested, with a bar behind ROOM:
 *
 *    Locate          LIMIT, LITERAL (either name), SHORT, MAGIC, VERSION, HEAD (no field)
 *    Audit           LIMIT, LITERAL (an unknown type), then the dictionary in byte order: SHORT, VERSION, LIMIT, DICT; ROOM | then null's and each entry's
 *                    bitmap: BITMAP, RANGE, TWICE; last MISSING
 *    Ask             LIMIT, LITERAL (an unknown type, edition or question), the literals in turn: LIMIT, LITERAL; then as Audit
 *    Open            as Audit; any version but 2 is VERSION, and ROOM is tested on the table too
 *    Look up         LIMIT, LITERAL (an unknown type or edition), the literals in turn: LIMIT, LITERAL; the fields in front of the directory in byte order: SHORT,
 *                    VERSION, LIMIT, DICT; ROOM (the table); the directory and one block: SHORT, LIMIT, DICT; ROOM (the field) | then null's and the found
 *                    entry's bitmap: BITMAP, RANGE. Of a body that Open accepted: as Ask, LIMIT, LITERAL and ROOM alone
 *    Ask of a file   as Locate, then as Ask on the part that was found: body and literals are tested when Ask's turn comes
 *    Read deletions  LIMIT, ROOM | SHORT, VERSION, SHORT, NOBIN, MAGIC, CHECKSUM, BITMAP, RANGE
 *    Read window     LIMIT, ROOM | SHORT, VERSION, SHORT, NOBIN, MAGIC, CHECKSUM, BITMAP
 *    Subtract        LIMIT, ROOM (leaves both fields as they were when it refuses)
 *    Subtract record LIMIT, ROOM (leaves both fields as they were when it refuses; the record becomes all 0)
 */
#ifndef PODDURANCE_H
#define PODDURANCE_H

#include <stddef.h>
#include <stdint.h>

#ifdef __cplusplus
extern "C" {
#endif

/* What a call answers. */
enum {
    PODDURANCE_ACCEPTED = 0,
    PODDURANCE_REFUSED_SHORT = 1,
    PODDURANCE_REFUSED_MAGIC = 2,
    PODDURANCE_REFUSED_VERSION = 3,
    PODDURANCE_REFUSED_HEAD = 4,
    PODDURANCE_REFUSED_DICT = 5,
    PODDURANCE_REFUSED_BITMAP = 6,
    PODDURANCE_REFUSED_RANGE = 7,
    PODDURANCE_REFUSED_TWICE = 8,
    PODDURANCE_REFUSED_MISSING = 9,
    PODDURANCE_REFUSED_ROOM = 10,
    PODDURANCE_REFUSED_LITERAL = 11,
    PODDURANCE_REFUSED_LIMIT = 12,
    PODDURANCE_REFUSED_CHECKSUM = 13,
    PODDURANCE_REFUSED_NOBIN = 14,
    PODDURANCE_ABSENT = 255 /* no such index: read all rows. Accepted with 0 matched rows says skip: read none */
};

/* The most blocks of a body. A table of so many words, 256 KiB, has room for every body. */
enum {
    PODDURANCE_MOST_BLOCKS = 65536
};

/* The column's type, for Audit, Ask, Open and Look up. */
enum {
    PODDURANCE_TYPE_TINYINT = 0,
    PODDURANCE_TYPE_BOOLEAN = 1,
    PODDURANCE_TYPE_SMALLINT = 2,
    PODDURANCE_TYPE_INT = 3,
    PODDURANCE_TYPE_DATE = 4,
    PODDURANCE_TYPE_TIME = 5,
    PODDURANCE_TYPE_BIGINT = 6,
    PODDURANCE_TYPE_TIMESTAMP = 7,
    PODDURANCE_TYPE_LOCAL_ZONED_TIMESTAMP = 8,
    PODDURANCE_TYPE_CHAR = 9,
    PODDURANCE_TYPE_VARCHAR = 10,
    PODDURANCE_TYPE_STRING = 11
};

/* The edition of the question, for Ask and Look up: what becomes of null rows in NOT EQUAL and NOT IN. Each question names one, there is no default; the
 * other questions choose the same rows in both. It stands before the question: both are numbers, and swapped they may be another well-formed question. */
enum {
    PODDURANCE_EDITION_1 = 1, /* document 01's rule, for stored dashboards: NOT EQUAL and NOT IN choose null rows too */
    PODDURANCE_EDITION_2 = 2  /* NOT EQUAL and NOT IN choose no null row, as in SQL; nor does NOT IN of no literals, where SQL would */
};

/* The question, for Ask. Look up is EQUAL's. */
enum {
    PODDURANCE_QUESTION_EQUAL = 0,       /* one literal */
    PODDURANCE_QUESTION_NOT_EQUAL = 1,   /* one literal; chooses null rows too in edition 1, none in edition 2 */
    PODDURANCE_QUESTION_IN = 2,          /* any number of literals */
    PODDURANCE_QUESTION_NOT_IN = 3,      /* any number; chooses null rows too in edition 1, none in edition 2 */
    PODDURANCE_QUESTION_IS_NULL = 4,     /* none */
    PODDURANCE_QUESTION_IS_NOT_NULL = 5  /* none */
};

/* Where the cause of a refusal is: 0 in each number that the refusal does not carry, and all 0 with an accepted answer and with 255. Lent as the counts are.
 *
 * entry      the dictionary's entry, in stored order: null's is 0, the values' are 1 and on, whether there is a null or not and through all blocks. 0 in a
 *            deletion bin. Look up, which names an entry only of a body that Open did not accept, counts within the block.
 * container  the lowest container of the entry's bitmap, from 0, whose key, cardinality, offset or bytes are wrong or cut off. 0 for a fault in the bitmap's place,
 *            cookie, count or flags and for a length below -1 or past the body; else a length other than -1 ends the bytes there, so that the container it
 *            cuts is named. If only bytes left over behind the last container are wrong, the number of containers. In a 64-bit bin it is 0, whatever is wrong
 *            behind its magic.
 * row        the lowest row without a place, from 0. */
typedef struct {
    uint64_t entry;
    uint64_t container;
    uint64_t row;
} poddurance_fault;

/* What a graph may claim of its rows, as 'drawn from 970 of 1,000 rows', matched of rows. All 0 with any answer but 0. Where it may lie is said at the top. Ask,
 * Ask of a file and Look up write it and don't read it; Subtract record reads rows and nulls and writes all four: what stood in deleted and matched makes no
 * difference.
 *
 * rows     the row count of the index. Subtract record leaves it.
 * nulls    how many rows are null: those of null's bitmap, 0 where has-null is 0, for each question and edition. Subtract record leaves it: null rows that are
 *          deleted still count here.
 * deleted  0 until deletions are subtracted. Subtract record writes how many rows below the row count are set in its second field, chosen or not; it replaces
 *          what stood here and does not add to it: after two calls it tells of the second one's field alone.
 * matched  how many rows are set in the field: Ask's chosen ones, Look up's found ones, and after Subtract record those left of them, counted afresh. Accepted
 *          with 0 says skip.
 *
 * Hand on an accepted answer's record alone. A refusal's is that of a data file without rows, for which Subtract record would answer 0 and clear nothing. */
typedef struct {
    uint64_t rows;
    uint64_t nulls;
    uint64_t deleted;
    uint64_t matched;
} poddurance_record;

/* Read deletions: the rows of bin number `bin` (from 0) of a deletion file, into a field for `rows` rows, and how many they are. A 64-bit bin is MAGIC, also
 * where its checksum or its bytes are wrong: Read window reads it. */
uint8_t poddurance_read_deletions(const uint8_t *file, size_t file_len, uint64_t bin, uint64_t rows,
                                  uint8_t *field, size_t field_len, uint64_t *deleted, poddurance_fault *fault);

/* Read window: of the rows of bin number `bin` (from 0) of a deletion file those in a window, the `rows` rows from row `first` on, into a field for `rows` rows, and
 * how many they are. Row r of the field is set exactly if the bin lists row first + r, and *deleted counts these alone. A row that is listed before the window
 * or behind it is no fault, so that a data file can be read in parts; there is no RANGE. The whole bin is tested, whatever the window.
 *
 * The bin is a 32-bit one, as in Read deletions, or a 64-bit one, whose magic is the bytes D1 D3 39 64: an 8-byte number of bitmaps, then per bitmap a 4-byte index
 * and the bitmap (numbers little-endian, indexes rising and below 2^31); its rows are index times 2^32 plus the bitmap's. Any fault behind that magic is BITMAP,
 * with entry 0 and container 0; a 32-bit bin's names the container as in Read deletions. A bin with neither magic is MAGIC.
 *
 * LIMIT is also given where first + rows is above 2^63, whether the sum fits in 64 bits or not; exactly 2^63 passes. A window from 0 of a 32-bit bin answers as
 * Read deletions, and gives the rows below `rows` where that says RANGE. */
uint8_t poddurance_read_window(const uint8_t *file, size_t file_len, uint64_t bin, uint64_t first, uint64_t rows,
                               uint8_t *field, size_t field_len, uint64_t *deleted, poddurance_fault *fault);

/* Subtract: clears in `first` each row below `rows` that is set in `second`. Answers how many rows below `rows` are left in `first`, and how many were
 * removed. ROOM is tested on both fields. */
uint8_t poddurance_subtract(uint8_t *first, size_t first_len, const uint8_t *second, size_t second_len,
                            uint64_t rows, uint64_t *left, uint64_t *removed);

/* Subtract record: Subtract for an answer's record, which goes in and comes back. Clears in `first` each row below record->rows that is set in `second`. Answers
 * in record->deleted how many rows below record->rows are set in `second`, in record->matched how many are left in `first`, and in *removed how many were removed
 * from it: the last two together are the rows below record->rows that were set in `first` before. A record->matched of 0 says skip. LIMIT and ROOM, the latter
 * for both fields, are tested on record->rows; the record's other numbers are not tested. `first` and the record are to be one answer's: null rows are handed
 * on as they are. */
uint8_t poddurance_subtract_record(uint8_t *first, size_t first_len, const uint8_t *second, size_t second_len,
                                   poddurance_record *record, uint64_t *removed);

/* Locate: finds the index of kind `kind` on column `column` in the embedded bytes if embedded_len isn't 0, else in the index file. The other buffer isn't
 * looked at. 0: found; the body is the `length` bytes from `start` on of the buffer that was looked at, and isn't copied. 255: the column or the kind is
 * not listed.
 *
 * Names are standard UTF-8 by pointer and length, not NUL-terminated: a zero byte is the zero character. Files store names in Java's modified UTF-8, in which the
 * zero character is C0 80, a character above U+FFFF two surrogates of three bytes each, and any other as in UTF-8. The asked names are compared in that form
 * with the stored ones, byte for byte. A stored name that is not in it (a byte 00, UTF-8's four bytes, half a pair of surrogates) matches nothing, is no second
 * listing and is no fault.
 *
 * LITERAL, before anything of the file is tested, also where both buffers are empty, and for the kind also where the column is not listed: a name that is
 * not standard UTF-8 (an overlong form, a surrogate, a character above U+10FFFF, cut off, a byte that continues nothing), or one over 65535 bytes in
 * modified form. LIMIT goes before it: the buffer that is looked at, or either name, over 2147483647 bytes. */
uint8_t poddurance_locate(const uint8_t *embedded, size_t embedded_len, const uint8_t *file, size_t file_len,
                          const uint8_t *column, size_t column_len, const uint8_t *kind, size_t kind_len,
                          uint64_t *start, uint64_t *length);

/* Audit: whether the body gives every row exactly one place; the row count. Accepted or refused behind ROOM, the field's bytes are zero. */
uint8_t poddurance_audit(const uint8_t *body, size_t body_len, uint32_t type,
                         uint8_t *field, size_t field_len, uint64_t *rows, poddurance_fault *fault);

/* Ask: audits the body; then exactly the rows that the question chooses by its edition's rule are set in the field. Literals lie one after another in the type's
 * stored form (big-endian numbers; strings with a 4-byte length). The record has the row count, the null rows and the chosen rows, as record->matched;
 * record->deleted is 0. Accepted with a record->matched of 0 says skip; a refusal writes 0 too. */
uint8_t poddurance_ask(const uint8_t *body, size_t body_len, uint32_t type, uint32_t edition, uint32_t question,
                       const uint8_t *literals, size_t literals_len,
                       uint8_t *field, size_t field_len, poddurance_record *record, poddurance_fault *fault);

/* Open, for version 2: audits the body, once for many lookups; the row count and the number of blocks. Accepted, the field's bytes are zero, and word i of the
 * table, for each block i from 0, is where the block's entry in the directory starts, counted from the body's first byte: at its value, of a string at the
 * value's length. Words behind them are as they were, and with a refusal all are. The table is under no limit of length; PODDURANCE_MOST_BLOCKS words are
 * enough for every body, and *blocks words are all that Look up needs. Any version but 2 is VERSION; Ask takes version 1 too. */
uint8_t poddurance_open(const uint8_t *body, size_t body_len, uint32_t type,
                        uint8_t *field, size_t field_len, uint32_t *table, size_t table_words,
                        uint64_t *rows, uint64_t *blocks, poddurance_fault *fault);

/* Look up: Ask's EQUAL without an audit, of a body that Open accepted, as the type that it was opened with and with the table as Open left it. The answer, the
 * record and the field are then those of poddurance_ask. It halves the directory through the table and reads one block, null's bitmap and one other. *compared
 * is the number of values that the literal was compared with: of B blocks at most floor(log2 B) + 1 first values, none if B is 0, and at most the entries of
 * the one block. 0 with a refusal.
 *
 * With another body, type or table, or one that was changed since, it still ends and stays inside its buffers, and refuses what it can't read, but it does not
 * audit: what it accepts may lack rows. Keep the three together. */
uint8_t poddurance_look_up(const uint8_t *body, size_t body_len, uint32_t type, uint32_t edition, const uint8_t *literals, size_t literals_len,
                           const uint32_t *table, size_t table_words,
                           uint8_t *field, size_t field_len, poddurance_record *record, uint64_t *compared, poddurance_fault *fault);

/* Ask of a file: Locate, then Ask on the part that it finds, in one call. 0: Ask's answer, its rows set in the field; a record->matched of 0 says skip. 255: the
 * column or the kind is not listed. Names are given, compared and refused as in Locate: LITERAL for a name goes before anything of the file, LITERAL for type,
 * edition, question and literals behind the file's head. With 255 and with a refusal of Locate the field's buffer is as it was; with a refusal of Ask it is as
 * Ask leaves it. The record is all 0 with every answer but 0. With 255 and with a refusal of Locate the fault is all 0. */
uint8_t poddurance_ask_file(const uint8_t *embedded, size_t embedded_len, const uint8_t *file, size_t file_len,
                            const uint8_t *column, size_t column_len, const uint8_t *kind, size_t kind_len,
                            uint32_t type, uint32_t edition, uint32_t question, const uint8_t *literals, size_t literals_len,
                            uint8_t *field, size_t field_len, poddurance_record *record, poddurance_fault *fault);

#ifdef __cplusplus
}
#endif

#endif
