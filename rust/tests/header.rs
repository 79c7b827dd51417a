//! The C header has the numbers of the Rust crate, compiles without a warning, and its names work from C.

mod support;

use std::collections::BTreeMap;
use std::fs;
use std::path::{Path, PathBuf};
use std::process::Command;
use std::slice;

use poddurance::{raw, Edition, Question, Refusal, Type};
use reference::writer::{bin_64, bitmap, deletion_file, file_of_bins, BitmapForm};
use support::say;

fn root() -> PathBuf {
    Path::new(env!("CARGO_MANIFEST_DIR")).join("..").canonicalize().unwrap()
}

/// The header's names and their numbers.
fn names() -> BTreeMap<String, u32> {
    let header = fs::read_to_string(root().join("include/poddurance.h")).unwrap();
    let lines = header.lines().filter_map(|line| line.trim_start().strip_prefix("PODDURANCE_")?.split_once(" = "));
    let number = |text: &str| text.split([',', ' ']).next().unwrap().parse().unwrap();
    lines.map(|(name, text)| (name.to_string(), number(text))).collect()
}

#[test]
fn names_have_the_numbers_of_the_rust_crate() {
    let constant = |group: &str, name: &str| format!("{group}_{}", name.replace(' ', "_"));
    let mut expected =
        BTreeMap::from([("ACCEPTED".to_string(), raw::ACCEPTED.into()), ("ABSENT".to_string(), raw::ABSENT.into())]);
    expected.extend(Refusal::ALL.map(|refusal| (constant("REFUSED", refusal.name()), refusal.number().into())));
    expected.extend(Type::ALL.map(|ty| (constant("TYPE", ty.name()), ty.number())));
    expected.extend(Edition::ALL.map(|edition| (constant("EDITION", edition.name()), edition.number())));
    expected.insert("MOST_BLOCKS".to_string(), raw::MOST_BLOCKS.try_into().unwrap());
    expected.extend(Question::ALL.map(|question| (constant("QUESTION", question.name()), question.number())));
    assert_eq!(names(), expected);
}

const PROGRAM: &str = r#"
#include <stdio.h>
#include <stdlib.h>
#include "poddurance.h"

DELETIONS
static const uint8_t file[] = {0, 5, 0x4E, 0x4E, 0xD0, 0x1A, 0x35, 0xAE, 0, 0, 0, 1, 0, 0, 0, 0x2F, 0, 0, 0, 1, 0, 1, 's', 0, 0, 0, 1, 0, 6,
                               'b', 'i', 't', 'm', 'a', 'p', 0, 0, 0, 0x2F, 0, 0, 0, 0x18, 0, 0, 0, 0,
                               1, 0, 0, 0, 3, 0, 0, 0, 2, 1, 0xFF, 0xFF, 0xFF, 0xFD, 7, 0xFF, 0xFF, 0xFF, 0xFF, 9, 0xFF, 0xFF, 0xFF, 0xFE};

/* The column U+1F525 as Java stores it, with an empty bitmap index; and the same in UTF-8's four bytes, which no name matches. */
static const uint8_t fire[] = {0, 5, 0x4E, 0x4E, 0xD0, 0x1A, 0x35, 0xAE, 0, 0, 0, 1, 0, 0, 0, 62, 0, 0, 0, 2,
                               0, 6, 0xED, 0xA0, 0xBD, 0xED, 0xB4, 0xA5, 0, 0, 0, 1, 0, 6, 'b', 'i', 't', 'm', 'a', 'p', 0, 0, 0, 62, 0, 0, 0, 0,
                               0, 4, 0xF0, 0x9F, 0x94, 0xA5, 0, 0, 0, 0, 0, 0, 0, 0};

/* The file's column as a body of version 2: two blocks, of 7 and of 9. Its directory starts at 22. */
static const uint8_t second_version[] = {2, 0, 0, 0, 3, 0, 0, 0, 2, 1, 0xFF, 0xFF, 0xFF, 0xFD, 0xFF, 0xFF, 0xFF, 0xFF, 0, 0, 0, 2,
                                         7, 0, 0, 0, 0, 9, 0, 0, 0, 13, 0, 0, 0, 26,
                                         0, 0, 0, 1, 7, 0xFF, 0xFF, 0xFF, 0xFF, 0xFF, 0xFF, 0xFF, 0xFF,
                                         0, 0, 0, 1, 9, 0xFF, 0xFF, 0xFF, 0xFE, 0xFF, 0xFF, 0xFF, 0xFF};

/* More words than any body has blocks, behind the first two. */
static uint32_t table[2 + PODDURANCE_MOST_BLOCKS];

static const char *named(uint8_t answer) {
    switch (answer) {
    case PODDURANCE_ACCEPTED: return "accepted";
    case PODDURANCE_ABSENT: return "absent";
    case PODDURANCE_REFUSED_SHORT: return "SHORT";
    case PODDURANCE_REFUSED_MAGIC: return "MAGIC";
    case PODDURANCE_REFUSED_VERSION: return "VERSION";
    case PODDURANCE_REFUSED_HEAD: return "HEAD";
    case PODDURANCE_REFUSED_DICT: return "DICT";
    case PODDURANCE_REFUSED_BITMAP: return "BITMAP";
    case PODDURANCE_REFUSED_RANGE: return "RANGE";
    case PODDURANCE_REFUSED_TWICE: return "TWICE";
    case PODDURANCE_REFUSED_MISSING: return "MISSING";
    case PODDURANCE_REFUSED_LITERAL: return "LITERAL";
    case PODDURANCE_REFUSED_ROOM: return "ROOM";
    case PODDURANCE_REFUSED_LIMIT: return "LIMIT";
    case PODDURANCE_REFUSED_CHECKSUM: return "CHECKSUM";
    case PODDURANCE_REFUSED_NOBIN: return "NOBIN";
    default: return "?";
    }
}

/* A fault and a record between numbers that no call may write. */
typedef struct {
    uint64_t before;
    poddurance_fault fault;
    uint64_t between;
    poddurance_record record;
    uint64_t behind;
} guarded;

/* Everything that a call writes begins as something else. */
static const guarded other = {77, {99, 99, 99}, 78, {99, 99, 99, 99}, 79};

static void say_guards(guarded at) {
    if (at.before != other.before || at.between != other.between || at.behind != other.behind) printf(", and a number beside fault or record is another");
}

static void say_fault(guarded at) {
    printf(", entry %u, container %u, row %u", (unsigned)at.fault.entry, (unsigned)at.fault.container, (unsigned)at.fault.row);
    say_guards(at);
}

static void say(uint8_t answer, uint64_t count, guarded at) {
    printf("%s, %u", named(answer), (unsigned)count);
    say_fault(at);
}

static void say_record(uint8_t answer, guarded at) {
    printf("%s, %u of %u rows, %u null, %u deleted", named(answer), (unsigned)at.record.matched, (unsigned)at.record.rows, (unsigned)at.record.nulls,
           (unsigned)at.record.deleted);
}

static void ask(const char *column, uint32_t type, uint32_t edition, uint32_t question, const uint8_t *literals, size_t length) {
    uint8_t field[2] = {0xAA, 0xAA};
    guarded at = other;
    uint8_t answer = poddurance_ask_file(file, 0, file, sizeof file, (const uint8_t *)column, 1, (const uint8_t *)"bitmap", 6,
                                         type, edition, question, literals, length, field, sizeof field, &at.record, &at.fault);
    say_record(answer, at);
    say_fault(at);
    printf(", %02X %02X\n", field[0], field[1]);
}

/* TINYINT in an edition, of the body and of the file. */
static void ask_in(uint32_t edition, uint32_t question, const uint8_t *literals, size_t length) {
    uint8_t field[2] = {0xAA, 0xAA};
    guarded at = other;
    uint8_t answer = poddurance_ask(file + 47, 24, PODDURANCE_TYPE_TINYINT, edition, question, literals, length, field, sizeof field,
                                    &at.record, &at.fault);
    say_record(answer, at);
    say_fault(at);
    printf(", %02X %02X\n", field[0], field[1]);
    ask("s", PODDURANCE_TYPE_TINYINT, edition, question, literals, length);
}

static void ask_both(uint32_t question, const uint8_t *literals, size_t length) {
    ask_in(PODDURANCE_EDITION_1, question, literals, length);
    ask_in(PODDURANCE_EDITION_2, question, literals, length);
}

/* The file with one byte changed: Audit and Ask of its body and Ask of the file say the same, unless the byte is in the head, which Ask of the file alone reads. */
static void change(size_t place, uint8_t byte) {
    uint8_t bytes[sizeof file], field[1];
    size_t i;
    uint64_t rows = 99;
    guarded at = other;
    uint8_t answer;
    for (i = 0; i < sizeof file; i++) bytes[i] = i == place ? byte : file[i];
    answer = poddurance_audit(bytes + 47, 24, PODDURANCE_TYPE_TINYINT, field, sizeof field, &rows, &at.fault);
    say(answer, rows, at);
    at = other;
    answer = poddurance_ask(bytes + 47, 24, PODDURANCE_TYPE_TINYINT, PODDURANCE_EDITION_2, PODDURANCE_QUESTION_IS_NULL, bytes, 0, field, sizeof field,
                            &at.record, &at.fault);
    printf("; ");
    say_record(answer, at);
    say_fault(at);
    at = other;
    answer = poddurance_ask_file(bytes, 0, bytes, sizeof bytes, (const uint8_t *)"s", 1, (const uint8_t *)"bitmap", 6, PODDURANCE_TYPE_TINYINT,
                                 PODDURANCE_EDITION_2, PODDURANCE_QUESTION_IS_NULL, bytes, 0, field, sizeof field, &at.record, &at.fault);
    printf("; ");
    say_record(answer, at);
    say_fault(at);
    printf("\n");
}

/* TINYINT, edition 2, IN: of a body, then of a file, with so much room for the field. */
static void ask_lent(const uint8_t *body, size_t body_length, const uint8_t *bytes, size_t length, const uint8_t *literals, size_t literals_length,
                     size_t room) {
    uint8_t field[1] = {0xAA};
    guarded at = other;
    uint8_t answer = poddurance_ask(body, body_length, PODDURANCE_TYPE_TINYINT, PODDURANCE_EDITION_2, PODDURANCE_QUESTION_IN, literals, literals_length,
                                    field, room, &at.record, &at.fault);
    say_record(answer, at);
    say_fault(at);
    printf(", %02X; ", field[0]);
    field[0] = 0xAA;
    at = other;
    answer = poddurance_ask_file(bytes, 0, bytes, length, (const uint8_t *)"s", 1, (const uint8_t *)"bitmap", 6, PODDURANCE_TYPE_TINYINT,
                                 PODDURANCE_EDITION_2, PODDURANCE_QUESTION_IN, literals, literals_length, field, room, &at.record, &at.fault);
    say_record(answer, at);
    say_fault(at);
    printf(", %02X\n", field[0]);
}

/* That body with one byte changed, and so much room for the field and for the table. */
static void open_changed(size_t place, uint8_t byte, size_t room, size_t words) {
    uint8_t bytes[sizeof second_version], field[2] = {0xAA, 0xAA};
    size_t i;
    uint64_t rows = 99, blocks = 99;
    guarded at = other;
    uint8_t answer;
    for (i = 0; i < sizeof bytes; i++) bytes[i] = i == place ? byte : second_version[i];
    table[0] = table[1] = table[2] = 7;
    answer = poddurance_open(bytes, sizeof bytes, PODDURANCE_TYPE_TINYINT, field, room, table, words, &rows, &blocks, &at.fault);
    say(answer, rows, at);
    printf(", %u blocks, %02X %02X, table %u %u %u\n", (unsigned)blocks, field[0], field[1], (unsigned)table[0], (unsigned)table[1],
           (unsigned)table[2]);
}

/* EQUAL of a body with the table that was filled last: looked up, and where the body is the one that was opened also asked, which is to say the same. */
static void look_up(const uint8_t *body, size_t length, uint32_t edition, const uint8_t *literals, size_t literals_length, size_t words) {
    uint8_t field[2] = {0xAA, 0xAA};
    uint64_t compared = 99;
    guarded at = other;
    uint8_t answer = poddurance_look_up(body, length, PODDURANCE_TYPE_TINYINT, edition, literals, literals_length, table, words, field, sizeof field,
                                        &at.record, &compared, &at.fault);
    say_record(answer, at);
    say_fault(at);
    printf(", %u compared, %02X %02X", (unsigned)compared, field[0], field[1]);
    if (body == second_version && words >= 2) {
        field[0] = field[1] = 0xAA;
        at = other;
        answer = poddurance_ask(body, length, PODDURANCE_TYPE_TINYINT, edition, PODDURANCE_QUESTION_EQUAL, literals, literals_length, field, sizeof field,
                                &at.record, &at.fault);
        printf("; ");
        say_record(answer, at);
        say_fault(at);
        printf(", %02X %02X", field[0], field[1]);
    }
    printf("\n");
}

/* Of the file, of the same bytes embedded, and of no bytes. */
static void locate(const char *column, size_t column_length, const char *kind, size_t kind_length) {
    int where;
    for (where = 0; where < 3; where++) {
        uint64_t start = 99, length = 99;
        uint8_t answer = poddurance_locate(fire, where == 1 ? sizeof fire : 0, fire, where == 0 ? sizeof fire : 0, (const uint8_t *)column, column_length,
                                           (const uint8_t *)kind, kind_length, &start, &length);
        printf("%s, %u bytes at %u%s", named(answer), (unsigned)length, (unsigned)start, where == 2 ? "\n" : "; ");
    }
}

/* Rows 5 and 65542 as two arrays, the second cut off or not, for so many rows. */
static void delete_rows(const uint8_t *deletions, size_t length, uint64_t rows) {
    static uint8_t field[8193];
    uint64_t deleted = 99;
    guarded at = other;
    uint8_t answer = poddurance_read_deletions(deletions, length, 0, rows, field, sizeof field, &deleted, &at.fault);
    say(answer, deleted, at);
    printf("\n");
}

/* The rows from one on, of bin 0 or another, with so much room for the field. */
static void delete_window(const uint8_t *deletions, size_t length, uint64_t bin, uint64_t first, uint64_t rows, size_t room) {
    uint8_t field[3] = {0xAA, 0xAA, 0xAA};
    uint64_t deleted = 99;
    guarded at = other;
    uint8_t answer = poddurance_read_window(deletions, length, bin, first, rows, field, room, &deleted, &at.fault);
    say(answer, deleted, at);
    printf(", %02X %02X %02X\n", field[0], field[1], field[2]);
}

/* Of 6 rows 1, 2, 4 and 5 without 0, 2 and 5, bits behind the rows set in both fields: twice, the record of the first call handed to the second. */
static void subtract_record(uint64_t rows, size_t first_length, size_t second_length) {
    uint8_t first[2] = {0xF6, 0xAA};
    const uint8_t second[2] = {0xE5, 0xFF};
    uint64_t removed = 99;
    int times;
    guarded at = other;
    at.record.rows = rows;
    at.record.nulls = 1;
    for (times = 0; times < 2; times++) {
        uint8_t answer = poddurance_subtract_record(first, first_length, second, second_length, &at.record, &removed);
        say_record(answer, at);
        say_guards(at);
        printf(", %u removed, %02X %02X\n", (unsigned)removed, first[0], first[1]);
        removed = 99;
        if (answer != PODDURANCE_ACCEPTED) return;
    }
}

int main(void) {
    static const uint8_t many[1025] = {0};
    static const char zeros[32768] = {0};
    const uint8_t seven[] = {7}, eight[] = {8}, nine[] = {9}, six[] = {6};
    const size_t too_long = 2147483648u;
    const uint64_t second_bitmap = (uint64_t)1 << 32, end_of_rows = (uint64_t)1 << 63;
    /* No call touches it, so that it takes no room. */
    uint8_t *const untouched = (uint8_t *)calloc(too_long, 1);
    if (!untouched) {
        printf("no 2 GiB to lend\n");
        return 1;
    }
    ask_both(PODDURANCE_QUESTION_EQUAL, seven, sizeof seven);
    ask_both(PODDURANCE_QUESTION_NOT_EQUAL, seven, sizeof seven);
    ask_both(PODDURANCE_QUESTION_EQUAL, eight, sizeof eight);
    ask_both(PODDURANCE_QUESTION_NOT_IN, seven, 0);
    ask_both(PODDURANCE_QUESTION_IS_NULL, seven, 0);
    ask_both(PODDURANCE_QUESTION_IS_NOT_NULL, seven, 0);
    ask("s", PODDURANCE_TYPE_INT, PODDURANCE_EDITION_2, PODDURANCE_QUESTION_EQUAL, seven, sizeof seven);
    ask_in(PODDURANCE_EDITION_2 + 1, PODDURANCE_QUESTION_IS_NULL, seven, 0);
    ask("t", PODDURANCE_TYPE_TINYINT, PODDURANCE_EDITION_2, PODDURANCE_QUESTION_EQUAL, seven, sizeof seven);
    change(67, 0);
    change(70, 0xFC);
    change(70, 0xFF);
    change(51, 4);
    change(0, 1);
    change(11, 2);
    change(42, 0x19);
    change(47, 3);
    change(54, 0x11);
    change(55, 3);
    change(66, 7);
    ask_lent(file + 47, 24, file, sizeof file, many, 1024, 1);
    ask_lent(file + 47, 24, file, sizeof file, many, 1025, 1);
    ask_lent(file + 47, 24, file, sizeof file, untouched, too_long, 1);
    ask_lent(untouched, too_long, untouched, too_long, seven, sizeof seven, 1);
    open_changed(0, 1, 2, 3);
    open_changed(0, 2, 2, 1);
    open_changed(0, 2, 0, 3);
    open_changed(9, 2, 2, 3);
    open_changed(54, 0, 2, 3);
    open_changed(57, 0xFC, 2, 3);
    open_changed(57, 0xFF, 2, 3);
    open_changed(4, 4, 2, 3);
    open_changed(0, 2, 2, 2);
    open_changed(0, 2, 2, sizeof table / sizeof table[0]);
    look_up(second_version, sizeof second_version, PODDURANCE_EDITION_1, seven, sizeof seven, 2);
    look_up(second_version, sizeof second_version, PODDURANCE_EDITION_2, seven, sizeof seven, PODDURANCE_MOST_BLOCKS);
    look_up(second_version, sizeof second_version, PODDURANCE_EDITION_2, nine, sizeof nine, 2);
    look_up(second_version, sizeof second_version, PODDURANCE_EDITION_2, eight, sizeof eight, 2);
    look_up(second_version, sizeof second_version, PODDURANCE_EDITION_2, six, sizeof six, 2);
    look_up(second_version, sizeof second_version, PODDURANCE_EDITION_2 + 1, seven, sizeof seven, 2);
    look_up(second_version, sizeof second_version, PODDURANCE_EDITION_2, seven, 0, 2);
    look_up(second_version, sizeof second_version, PODDURANCE_EDITION_2, many, 1025, 2);
    look_up(second_version, sizeof second_version, PODDURANCE_EDITION_2, untouched, too_long, 2);
    look_up(second_version, sizeof second_version, PODDURANCE_EDITION_2, seven, sizeof seven, 1);
    look_up(untouched, too_long, PODDURANCE_EDITION_2, seven, sizeof seven, 2);
    look_up(second_version, 0, PODDURANCE_EDITION_2, seven, sizeof seven, 2);
    look_up(file + 47, 24, PODDURANCE_EDITION_2, seven, sizeof seven, 2);
    delete_window(untouched, too_long, 0, 0, 12, 3);
    free(untouched);
    ask_lent(file + 47, 23, file, 11, seven, sizeof seven, 1);
    ask_lent(file + 47, 0, file, 0, seven, sizeof seven, 1);
    ask_lent(file + 47, 24, file, sizeof file, seven, sizeof seven, 0);
    locate("\xF0\x9F\x94\xA5", 4, "bitmap", 6);
    locate("\xED\xA0\xBD\xED\xB4\xA5", 6, "bitmap", 6);
    locate("", 0, "\xC0\x80", 2);
    locate(zeros, 32767, "bitmap", 6);
    locate(zeros, 32768, "bitmap", 6);
    ask("\xFF", PODDURANCE_TYPE_TINYINT, PODDURANCE_EDITION_2, PODDURANCE_QUESTION_EQUAL, seven, sizeof seven);
    delete_rows(whole, sizeof whole, 65543);
    delete_rows(whole, sizeof whole, 65542);
    delete_rows(cut, sizeof cut, 65543);
    delete_rows(wide, sizeof wide, 65543);
    delete_rows(wide_cut, sizeof wide_cut, 65543);
    delete_window(wide, sizeof wide, 0, 0, 12, 3);
    delete_window(wide, sizeof wide, 0, second_bitmap + 1, 12, 3);
    delete_window(wide, sizeof wide, 0, end_of_rows - 12, 12, 3);
    delete_window(wide, sizeof wide, 0, 5, 0, 0);
    delete_window(wide, sizeof wide, 0, end_of_rows, 0, 0);
    delete_window(wide, sizeof wide, 0, end_of_rows - 11, 12, 3);
    delete_window(wide, sizeof wide, 0, UINT64_MAX, 12, 3);
    delete_window(wide, sizeof wide, 0, 0, too_long, 3);
    delete_window(wide, sizeof wide, 0, 0, 12, 1);
    delete_window(wide, 0, 0, 0, 12, 3);
    delete_window(wide + 4, 1, 0, 0, 12, 3);
    delete_window(wide, sizeof wide - 1, 0, 0, 12, 3);
    delete_window(wide, sizeof wide, 1, 0, 12, 3);
    delete_window(big_endian, sizeof big_endian, 0, 0, 12, 3);
    delete_window(wrong_sum, sizeof wrong_sum, 0, 0, 12, 3);
    delete_window(wide_cut, sizeof wide_cut, 0, 0, 12, 3);
    delete_window(whole, sizeof whole, 0, 65537, 12, 3);
    delete_window(cut, sizeof cut, 0, 65537, 12, 3);
    subtract_record(6, 2, 2);
    subtract_record(6, 0, 2);
    subtract_record(6, 2, 0);
    subtract_record(2147483647, 2, 2);
    subtract_record(2147483648, 0, 0);
    return 0;
}
"#;

const PRINTED: &str = "\
accepted, 1 of 3 rows, 1 null, 0 deleted, entry 0, container 0, row 0, 01 AA
accepted, 1 of 3 rows, 1 null, 0 deleted, entry 0, container 0, row 0, 01 AA
accepted, 1 of 3 rows, 1 null, 0 deleted, entry 0, container 0, row 0, 01 AA
accepted, 1 of 3 rows, 1 null, 0 deleted, entry 0, container 0, row 0, 01 AA
accepted, 2 of 3 rows, 1 null, 0 deleted, entry 0, container 0, row 0, 06 AA
accepted, 2 of 3 rows, 1 null, 0 deleted, entry 0, container 0, row 0, 06 AA
accepted, 1 of 3 rows, 1 null, 0 deleted, entry 0, container 0, row 0, 02 AA
accepted, 1 of 3 rows, 1 null, 0 deleted, entry 0, container 0, row 0, 02 AA
accepted, 0 of 3 rows, 1 null, 0 deleted, entry 0, container 0, row 0, 00 AA
accepted, 0 of 3 rows, 1 null, 0 deleted, entry 0, container 0, row 0, 00 AA
accepted, 0 of 3 rows, 1 null, 0 deleted, entry 0, container 0, row 0, 00 AA
accepted, 0 of 3 rows, 1 null, 0 deleted, entry 0, container 0, row 0, 00 AA
accepted, 3 of 3 rows, 1 null, 0 deleted, entry 0, container 0, row 0, 07 AA
accepted, 3 of 3 rows, 1 null, 0 deleted, entry 0, container 0, row 0, 07 AA
accepted, 2 of 3 rows, 1 null, 0 deleted, entry 0, container 0, row 0, 03 AA
accepted, 2 of 3 rows, 1 null, 0 deleted, entry 0, container 0, row 0, 03 AA
accepted, 1 of 3 rows, 1 null, 0 deleted, entry 0, container 0, row 0, 04 AA
accepted, 1 of 3 rows, 1 null, 0 deleted, entry 0, container 0, row 0, 04 AA
accepted, 1 of 3 rows, 1 null, 0 deleted, entry 0, container 0, row 0, 04 AA
accepted, 1 of 3 rows, 1 null, 0 deleted, entry 0, container 0, row 0, 04 AA
accepted, 2 of 3 rows, 1 null, 0 deleted, entry 0, container 0, row 0, 03 AA
accepted, 2 of 3 rows, 1 null, 0 deleted, entry 0, container 0, row 0, 03 AA
accepted, 2 of 3 rows, 1 null, 0 deleted, entry 0, container 0, row 0, 03 AA
accepted, 2 of 3 rows, 1 null, 0 deleted, entry 0, container 0, row 0, 03 AA
LITERAL, 0 of 0 rows, 0 null, 0 deleted, entry 0, container 0, row 0, AA AA
LITERAL, 0 of 0 rows, 0 null, 0 deleted, entry 0, container 0, row 0, AA AA
LITERAL, 0 of 0 rows, 0 null, 0 deleted, entry 0, container 0, row 0, AA AA
absent, 0 of 0 rows, 0 null, 0 deleted, entry 0, container 0, row 0, AA AA
BITMAP, 0, entry 2, container 0, row 0; BITMAP, 0 of 0 rows, 0 null, 0 deleted, entry 2, container 0, row 0; BITMAP, 0 of 0 rows, 0 null, 0 deleted, entry 2, container 0, row 0
RANGE, 0, entry 2, container 0, row 0; RANGE, 0 of 0 rows, 0 null, 0 deleted, entry 2, container 0, row 0; RANGE, 0 of 0 rows, 0 null, 0 deleted, entry 2, container 0, row 0
TWICE, 0, entry 2, container 0, row 0; TWICE, 0 of 0 rows, 0 null, 0 deleted, entry 2, container 0, row 0; TWICE, 0 of 0 rows, 0 null, 0 deleted, entry 2, container 0, row 0
MISSING, 0, entry 0, container 0, row 3; MISSING, 0 of 0 rows, 0 null, 0 deleted, entry 0, container 0, row 3; MISSING, 0 of 0 rows, 0 null, 0 deleted, entry 0, container 0, row 3
accepted, 3, entry 0, container 0, row 0; accepted, 1 of 3 rows, 1 null, 0 deleted, entry 0, container 0, row 0; MAGIC, 0 of 0 rows, 0 null, 0 deleted, entry 0, container 0, row 0
accepted, 3, entry 0, container 0, row 0; accepted, 1 of 3 rows, 1 null, 0 deleted, entry 0, container 0, row 0; VERSION, 0 of 0 rows, 0 null, 0 deleted, entry 0, container 0, row 0
accepted, 3, entry 0, container 0, row 0; accepted, 1 of 3 rows, 1 null, 0 deleted, entry 0, container 0, row 0; HEAD, 0 of 0 rows, 0 null, 0 deleted, entry 0, container 0, row 0
VERSION, 0, entry 0, container 0, row 0; VERSION, 0 of 0 rows, 0 null, 0 deleted, entry 0, container 0, row 0; VERSION, 0 of 0 rows, 0 null, 0 deleted, entry 0, container 0, row 0
LIMIT, 0, entry 0, container 0, row 0; LIMIT, 0 of 0 rows, 0 null, 0 deleted, entry 0, container 0, row 0; LIMIT, 0 of 0 rows, 0 null, 0 deleted, entry 0, container 0, row 0
SHORT, 0, entry 0, container 0, row 0; SHORT, 0 of 0 rows, 0 null, 0 deleted, entry 0, container 0, row 0; SHORT, 0 of 0 rows, 0 null, 0 deleted, entry 0, container 0, row 0
DICT, 0, entry 0, container 0, row 0; DICT, 0 of 0 rows, 0 null, 0 deleted, entry 0, container 0, row 0; DICT, 0 of 0 rows, 0 null, 0 deleted, entry 0, container 0, row 0
accepted, 0 of 3 rows, 1 null, 0 deleted, entry 0, container 0, row 0, 00; accepted, 0 of 3 rows, 1 null, 0 deleted, entry 0, container 0, row 0, 00
LIMIT, 0 of 0 rows, 0 null, 0 deleted, entry 0, container 0, row 0, AA; LIMIT, 0 of 0 rows, 0 null, 0 deleted, entry 0, container 0, row 0, AA
LIMIT, 0 of 0 rows, 0 null, 0 deleted, entry 0, container 0, row 0, AA; LIMIT, 0 of 0 rows, 0 null, 0 deleted, entry 0, container 0, row 0, AA
LIMIT, 0 of 0 rows, 0 null, 0 deleted, entry 0, container 0, row 0, AA; LIMIT, 0 of 0 rows, 0 null, 0 deleted, entry 0, container 0, row 0, AA
VERSION, 0, entry 0, container 0, row 0, 0 blocks, AA AA, table 7 7 7
ROOM, 0, entry 0, container 0, row 0, 0 blocks, AA AA, table 7 7 7
ROOM, 0, entry 0, container 0, row 0, 0 blocks, AA AA, table 7 7 7
DICT, 0, entry 0, container 0, row 0, 0 blocks, AA AA, table 7 7 7
BITMAP, 0, entry 2, container 0, row 0, 0 blocks, 00 AA, table 7 7 7
RANGE, 0, entry 2, container 0, row 0, 0 blocks, 00 AA, table 7 7 7
TWICE, 0, entry 2, container 0, row 0, 0 blocks, 00 AA, table 7 7 7
MISSING, 0, entry 0, container 0, row 3, 0 blocks, 00 AA, table 7 7 7
accepted, 3, entry 0, container 0, row 0, 2 blocks, 00 AA, table 22 27 7
accepted, 3, entry 0, container 0, row 0, 2 blocks, 00 AA, table 22 27 7
accepted, 1 of 3 rows, 1 null, 0 deleted, entry 0, container 0, row 0, 3 compared, 01 AA; accepted, 1 of 3 rows, 1 null, 0 deleted, entry 0, container 0, row 0, 01 AA
accepted, 1 of 3 rows, 1 null, 0 deleted, entry 0, container 0, row 0, 3 compared, 01 AA; accepted, 1 of 3 rows, 1 null, 0 deleted, entry 0, container 0, row 0, 01 AA
accepted, 1 of 3 rows, 1 null, 0 deleted, entry 0, container 0, row 0, 2 compared, 02 AA; accepted, 1 of 3 rows, 1 null, 0 deleted, entry 0, container 0, row 0, 02 AA
accepted, 0 of 3 rows, 1 null, 0 deleted, entry 0, container 0, row 0, 3 compared, 00 AA; accepted, 0 of 3 rows, 1 null, 0 deleted, entry 0, container 0, row 0, 00 AA
accepted, 0 of 3 rows, 1 null, 0 deleted, entry 0, container 0, row 0, 2 compared, 00 AA; accepted, 0 of 3 rows, 1 null, 0 deleted, entry 0, container 0, row 0, 00 AA
LITERAL, 0 of 0 rows, 0 null, 0 deleted, entry 0, container 0, row 0, 0 compared, AA AA; LITERAL, 0 of 0 rows, 0 null, 0 deleted, entry 0, container 0, row 0, AA AA
LITERAL, 0 of 0 rows, 0 null, 0 deleted, entry 0, container 0, row 0, 0 compared, AA AA; LITERAL, 0 of 0 rows, 0 null, 0 deleted, entry 0, container 0, row 0, AA AA
LIMIT, 0 of 0 rows, 0 null, 0 deleted, entry 0, container 0, row 0, 0 compared, AA AA; LIMIT, 0 of 0 rows, 0 null, 0 deleted, entry 0, container 0, row 0, AA AA
LIMIT, 0 of 0 rows, 0 null, 0 deleted, entry 0, container 0, row 0, 0 compared, AA AA; LIMIT, 0 of 0 rows, 0 null, 0 deleted, entry 0, container 0, row 0, AA AA
ROOM, 0 of 0 rows, 0 null, 0 deleted, entry 0, container 0, row 0, 0 compared, AA AA
LIMIT, 0 of 0 rows, 0 null, 0 deleted, entry 0, container 0, row 0, 0 compared, AA AA
SHORT, 0 of 0 rows, 0 null, 0 deleted, entry 0, container 0, row 0, 0 compared, AA AA; SHORT, 0 of 0 rows, 0 null, 0 deleted, entry 0, container 0, row 0, AA AA
VERSION, 0 of 0 rows, 0 null, 0 deleted, entry 0, container 0, row 0, 0 compared, AA AA
LIMIT, 0, entry 0, container 0, row 0, AA AA AA
SHORT, 0 of 0 rows, 0 null, 0 deleted, entry 0, container 0, row 0, AA; SHORT, 0 of 0 rows, 0 null, 0 deleted, entry 0, container 0, row 0, AA
SHORT, 0 of 0 rows, 0 null, 0 deleted, entry 0, container 0, row 0, AA; SHORT, 0 of 0 rows, 0 null, 0 deleted, entry 0, container 0, row 0, AA
ROOM, 0 of 0 rows, 0 null, 0 deleted, entry 0, container 0, row 0, AA; ROOM, 0 of 0 rows, 0 null, 0 deleted, entry 0, container 0, row 0, AA
accepted, 0 bytes at 62; accepted, 0 bytes at 62; SHORT, 0 bytes at 0
LITERAL, 0 bytes at 0; LITERAL, 0 bytes at 0; LITERAL, 0 bytes at 0
LITERAL, 0 bytes at 0; LITERAL, 0 bytes at 0; LITERAL, 0 bytes at 0
absent, 0 bytes at 0; absent, 0 bytes at 0; SHORT, 0 bytes at 0
LITERAL, 0 bytes at 0; LITERAL, 0 bytes at 0; LITERAL, 0 bytes at 0
LITERAL, 0 of 0 rows, 0 null, 0 deleted, entry 0, container 0, row 0, AA AA
accepted, 2, entry 0, container 0, row 0
RANGE, 0, entry 0, container 0, row 0
BITMAP, 0, entry 0, container 1, row 0
MAGIC, 0, entry 0, container 0, row 0
MAGIC, 0, entry 0, container 0, row 0
accepted, 1, entry 0, container 0, row 0, 20 00 AA
accepted, 2, entry 0, container 0, row 0, 04 02 AA
accepted, 1, entry 0, container 0, row 0, 00 08 AA
accepted, 0, entry 0, container 0, row 0, AA AA AA
accepted, 0, entry 0, container 0, row 0, AA AA AA
LIMIT, 0, entry 0, container 0, row 0, AA AA AA
LIMIT, 0, entry 0, container 0, row 0, AA AA AA
LIMIT, 0, entry 0, container 0, row 0, AA AA AA
ROOM, 0, entry 0, container 0, row 0, AA AA AA
SHORT, 0, entry 0, container 0, row 0, 00 00 AA
VERSION, 0, entry 0, container 0, row 0, 00 00 AA
SHORT, 0, entry 0, container 0, row 0, 00 00 AA
NOBIN, 0, entry 0, container 0, row 0, 00 00 AA
MAGIC, 0, entry 0, container 0, row 0, 00 00 AA
CHECKSUM, 0, entry 0, container 0, row 0, 00 00 AA
BITMAP, 0, entry 0, container 0, row 0, 00 00 AA
accepted, 1, entry 0, container 0, row 0, 20 00 AA
BITMAP, 0, entry 0, container 1, row 0, 00 00 AA
accepted, 2 of 6 rows, 1 null, 3 deleted, 2 removed, D2 AA
accepted, 2 of 6 rows, 1 null, 3 deleted, 0 removed, D2 AA
ROOM, 0 of 0 rows, 0 null, 0 deleted, 0 removed, F6 AA
ROOM, 0 of 0 rows, 0 null, 0 deleted, 0 removed, F6 AA
ROOM, 0 of 0 rows, 0 null, 0 deleted, 0 removed, F6 AA
LIMIT, 0 of 0 rows, 0 null, 0 deleted, 0 removed, F6 AA
";

/// Deletion files as arrays in C. Of one 32-bit bin: rows 5 and 65,542 as two arrays, and the same without the last byte. Of one 64-bit bin: row 5,
/// rows 3 and 10 of the second bitmap, and the last row of all; the same without the last byte; with the magic's bytes turned round; and with
/// a wrong checksum.
fn deletions() -> String {
    let whole = bitmap(&[5, 65_542], &BitmapForm::WithRuns(Vec::new()));
    let cut = whole[..whole.len() - 1].to_vec();
    let wide = bin_64(&[5, (1 << 32) + 3, (1 << 32) + 10, (1 << 63) - 1], &BitmapForm::Smallest);
    let (magic, behind) = wide.split_at(4);
    let big_endian: Vec<u8> = magic.iter().rev().chain(behind).copied().collect();
    let sound = file_of_bins(slice::from_ref(&wide));
    let mut wrong_sum = sound.clone();
    *wrong_sum.last_mut().unwrap() ^= 1;
    [
        ("whole", deletion_file(&[whole])),
        ("cut", deletion_file(&[cut])),
        ("wide", sound),
        ("wide_cut", file_of_bins(&[wide[..wide.len() - 1].to_vec()])),
        ("big_endian", file_of_bins(&[big_endian])),
        ("wrong_sum", wrong_sum),
    ]
    .map(|(name, file)| {
        let bytes: Vec<String> = file.iter().map(u8::to_string).collect();
        format!("static const uint8_t {name}[] = {{{}}};\n", bytes.join(", "))
    })
    .concat()
}

#[test]
fn names_work_from_c() {
    let folder = Path::new(env!("CARGO_TARGET_TMPDIR"));
    let source = folder.join("header.c");
    fs::write(&source, PROGRAM.replace("DELETIONS", &deletions())).unwrap();
    let archives = std::env::var_os("PODDURANCE_LIB_DIR").filter(|folder| !folder.is_empty());
    let archives = archives.map_or_else(|| root().join("target/staticlib"), PathBuf::from);
    for (compiler, words) in [("cc", &["-std=c99"][..]), ("c++", &["-std=c++11", "-x", "c++"])] {
        if Command::new(compiler).arg("--version").output().is_err() {
            say(&format!("\nskipped: the header with the compiler '{compiler}', since there is none"));
            continue;
        }
        let program = folder.join(format!("header-{compiler}"));
        let output = Command::new(compiler)
            .args(words)
            .args(["-Wall", "-Wextra", "-Wpedantic", "-Werror", "-I"])
            .arg(root().join("include"))
            .arg("-o")
            .arg(&program)
            .arg(&source)
            // The archive is no source in C++.
            .args(["-x", "none"])
            .arg(archives.join("libpoddurance.a"))
            .output()
            .unwrap();
        assert!(output.status.success(), "{compiler}: {}", String::from_utf8_lossy(&output.stderr));
        let output = Command::new(&program).output().unwrap();
        assert_eq!(String::from_utf8(output.stdout).unwrap(), PRINTED, "{compiler}");
    }
}
