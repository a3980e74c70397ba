/*
 * crestulbino.h: labelled radar files, waveform files and short burst files, from C11 and C++17.
 *
 * Link with target/staticlib/libcapi.a, which `tools/archive` proves and builds (x86-64-v2).
 *
 * Every call takes any bytes and any numbers. It answers, or it gives one refusal: a number and a place. On a refusal it has
 * written nothing, neither to lent memory nor through a pointer. On an answer it has written every number that it has a pointer
 * for, but those that are absent (in a crest_row, and by crest_beams), and the front of the memory lent to it; what stands behind
 * that front is unchanged.
 * No call allocates, and none keeps anything, so that calls may run at the same time.
 *
 * What a caller owes:
 *  - a pointer with a length behind it is good for that many elements, and is aligned for them; only a pointer with length 0
 *    may be null;
 *  - a pointer without a length is not null: to one number, to as many bytes as its declaration says, to one crest_row, or to one
 *    crest_dot;
 *  - outputs overlap neither one another nor an input, and nobody else writes to an input while a call runs;
 *  - a file is of the kind that the call's name says: no call can tell the kinds apart.
 *
 * A label is of version 1 or 2, as its byte 4 says, '1' or '2', and a file may mix them, one inside the other too. Version 1 has
 * its length in eight digits, with spaces for those in front or without; version 2 has it as a binary number of 64 bits, the
 * most significant byte first. Every call that reads labels is told by version_2 whether version 2 is allowed beside version 1;
 * if not, a label of version 2 is BADLABEL. Take one choice throughout for what belongs together: the check of a file, its
 * index, kept or not, and the check of that, reading and the jump.
 *
 * A short burst file (Cassini SBDR) has records of 1,272 bytes, which are its rows. They stand end to end from the place start
 * on, which the caller gives, to the end of the file; where start is that end, there are none. What is in front of start is not
 * looked at.
 *
 * A place is the number of bytes before it in what was lent. A row's answer is a crest_row: which bytes of the file the window
 * shows, and the address of the row, which no window moves. Nothing is copied.
 *
 * The numbers of the refusals are in enum crest_refusal. "Refuses:" gives the refusals of a call in the order in which
 * they are tested; their place is 0 where nothing else is said.
 */
#ifndef CRESTULBINO_H
#define CRESTULBINO_H

#include <stddef.h>
#include <stdint.h>

#ifndef __cplusplus
#include <stdbool.h>
#endif

#ifdef __cplusplus
extern "C" {
#endif

/* What every call returns but crest_tone, crest_sample, crest_beams and crest_mode, which refuse nothing. */
typedef struct crest_result {
    uint64_t refusal; /* 0: the call answered; else one of enum crest_refusal */
    uint64_t place;   /* of the fault; 0 where the call answered */
} crest_result;

/* What is shown of a row, and where the row is found again in its file. */
typedef struct crest_row {
    uint64_t place;     /* of the first byte that is shown, where none is shown too */
    uint64_t bytes;     /* how many are shown: file[place] to file[place + bytes - 1] */
    uint64_t label;     /* the place of the row's label; in waveform and burst files of the row's own first byte */
    uint64_t nesting;   /* one of enum crest_nesting: whether the two below are known; where they are absent, they stay as they were */
    uint64_t depth;     /* of the row's label, 1 to 8; in waveform and burst files 0 */
    uint64_t outermost; /* the place of the outermost object that the row lies in, at depth 1 its own label's; in the others as label */
} crest_row;

/* Whether a row's depth and its outermost object's place are told. */
enum crest_nesting {
    CREST_ABSENT = 0,
    CREST_KNOWN = 1
};

/* Which of the two files crest_substitute_row shows a row of. */
enum crest_source {
    CREST_ORIGINAL = 0,
    CREST_SUBSTITUTE = 1
};

/* A place of a strip's lines, and the byte that stands behind it. */
typedef struct crest_dot {
    uint64_t place; /* of the byte in the file */
    uint64_t byte;  /* the byte there, 0 to 255 */
    uint64_t tone;  /* its tone, 0 to 255 */
    uint64_t dot;   /* 1 where the dot is set, 0 where it is not */
} crest_dot;

enum crest_refusal {
    CREST_SHORT = 1,
    CREST_BADLABEL = 2,
    CREST_BADLENGTH = 3,
    CREST_OVERRUN = 4,
    CREST_DEEP = 5,
    CREST_NOROW = 6,
    CREST_NOPART = 7,
    CREST_SMALL = 8,
    CREST_RESERVED = 9,
    CREST_UNKNOWN = 10,
    CREST_BADINDEX = 11,
    CREST_RAGGED = 12,
    CREST_BADKEPT = 13,
    CREST_TOOBIG = 14,
    CREST_TOOLONG = 15,
    CREST_BADSTART = 16
};

/* What crest_verdict, crest_burst_verdict and crest_beams answer. */
enum crest_verdict_number {
    CREST_BELOW = 0,
    CREST_INSIDE = 1,
    CREST_ABOVE = 2
};

/* What a field of a burst is stored as. Numbers have their least significant byte first. */
enum crest_field_type {
    CREST_UNSIGNED = 0, /* an integer of 4 bytes */
    CREST_SIGNED = 1,   /* an integer of 4 bytes, in two's complement */
    CREST_FLOAT4 = 2,   /* an IEEE 754 float of 4 bytes */
    CREST_FLOAT8 = 3,   /* an IEEE 754 float of 8 bytes */
    CREST_TEXT = 4      /* an ASCII string of 16 or 24 bytes */
};

/* What crest_mode answers: the compression modes of bursts, by their numbers. BAQ is block adaptive quantization. */
enum crest_mode_number {
    CREST_MODE_BAQ_8_TO_2 = 0,
    CREST_MODE_BAQ_8_TO_1 = 1,
    CREST_MODE_8_TO_0 = 2,          /* no active mode data */
    CREST_MODE_8_TO_2_MSB = 3,      /* the two most significant bits */
    CREST_MODE_8_TO_4_MSB = 4,      /* the four most significant bits */
    CREST_MODE_8_STRAIGHT = 5,
    CREST_MODE_BAQ_8_TO_4_LOW = 6,  /* normally for the altimeter with low resolution */
    CREST_MODE_BAQ_8_TO_4_HIGH = 7, /* normally for the altimeter with high resolution */
    CREST_MODE_UNNAMED = 8          /* no mode: every number above 7 */
};

/* The bytes of a label, and with it of what crest_write_label writes. */
#define CREST_LABEL_BYTES 20u

/* One entry of an index stands for so many rows: n rows have (n + 15) / 16 entries. */
#define CREST_ROWS_PER_ENTRY 16u

/* The bytes of a kept index of kind 1 in front of its entries, of four bytes each. */
#define CREST_KEPT_FRONT_BYTES 6u

/* The same of kind 2, which has the row count there, of four bytes too. */
#define CREST_KEPT2_FRONT_BYTES 10u

/* The bytes of a record of a burst file, which is a row. */
#define CREST_BURST_BYTES 1272u

/* How many fields a burst has: their positions are 1 to this. */
#define CREST_BURST_FIELDS 255u

/* A refusal with its name and a sentence in words, for crest_refusal_name and crest_refusal_text. */
typedef struct crest_refusal_words {
    const char *name;
    const char *text;
} crest_refusal_words;

/* The words of a refusal's number. 0 and numbers of no refusal have words too, so that any number can be shown. */
static inline crest_refusal_words crest_words_of(uint64_t number)
{
    static const crest_refusal_words words[] = {
        {"ANSWERED", "the call answered"},
        {"SHORT", "too few bytes remain for a label or a number"},
        {"BADLABEL", "bytes 0 to 11 are not those of a label of an allowed version"},
        {"BADLENGTH", "the length field of a version 1 label is not spaces followed by digits"},
        {"OVERRUN", "the value ends beyond its enclosing value or the file"},
        {"DEEP", "a label stands deeper than depth 8"},
        {"NOROW", "no row has this number or begins from this place on"},
        {"NOPART", "the window does not fit the row, or the column is outside of the window"},
        {"SMALL", "the lent output is too short"},
        {"RESERVED", "the VAX number has sign 1 and exponent 0"},
        {"UNKNOWN", "there is no such field, or the element or field has no limits"},
        {"BADINDEX", "the list is not the index of this file, or the row count is not this file's"},
        {"RAGGED", "the waveform file is no multiple of 2,080 bytes, or the rest of the burst file none of 1,272"},
        {"BADKEPT", "these bytes are no kept index of the kind asked for"},
        {"TOOBIG", "there are more than 4,294,967,295 bytes in the file or in two files joined, or too many entries to be kept"},
        {"TOOLONG", "a version 1 label cannot hold a length of more than 99,999,999 bytes"},
        {"BADSTART", "the first record's place is beyond the file"},
        {"NUMBER", "no refusal has this number"}
    };
    const uint64_t last = sizeof words / sizeof words[0] - 1;
    return words[number < last ? number : last];
}

/* The name of a refusal, as "BADLABEL". */
static inline const char *crest_refusal_name(uint64_t number)
{
    return crest_words_of(number).name;
}

/* A refusal in words, as "the lent output is too short". */
static inline const char *crest_refusal_text(uint64_t number)
{
    return crest_words_of(number).text;
}

/* ---- Labels ---- */

/*
 * label::read_label. Reads the label at the front of bytes; what follows it is ignored. version is 1 or 2. length is the number of
 * bytes behind the label that it claims, and is compared with nothing. spaces, 0 to 7, is how many spaces stand in front of the
 * length's digits; in version 2 it is 0.
 * Refuses: SHORT, BADLABEL; in version 1 BADLENGTH.
 * Writes: agency, version, class_, description, length, spaces.
 */
crest_result crest_read_label(const uint8_t *bytes, size_t bytes_len, bool version_2, uint8_t agency[4], uint8_t *version,
                              uint8_t *class_, uint8_t description[4], uint64_t *length, uint8_t *spaces);

/*
 * label_writer::write_label. Writes a label of this version, 1 or 2, with the twelve bytes head, for length bytes behind it. The
 * length is written in eight digits in version 1, and in eight bytes in version 2, which takes any.
 * Refuses: BADLABEL, also where head_len is not 12 or byte 4 of head does not agree with version, as none does with a number
 * other than 1 and 2; in version 1 TOOLONG; SMALL.
 * Writes: the first 20 bytes of out; written, which is 20.
 */
crest_result crest_write_label(uint8_t version, const uint8_t *head, size_t head_len, uint64_t length, uint8_t *out,
                               size_t out_len, uint64_t *written);

/* ---- Files: check, read from the first byte, jump, go on ---- */

/*
 * reader::check of a labelled file. Checks the whole file, as deep as it goes: objects of the classes Z, U and F hold further objects,
 * and the value of every other one is a row.
 * Refuses: TOOBIG; then at the first faulty label, with its place: DEEP, SHORT, BADLABEL, in version 1 BADLENGTH, OVERRUN.
 * Writes: rows, how many rows the file has.
 */
crest_result crest_check_labelled(const uint8_t *file, size_t file_len, bool version_2, uint64_t *rows);

/*
 * reader::check of a waveform file.
 * Refuses: TOOBIG, RAGGED.
 * Writes: rows, how many rows the file has.
 */
crest_result crest_check_waveform(const uint8_t *file, size_t file_len, uint64_t *rows);

/*
 * reader::check of a burst file whose first record is at the place start.
 * Refuses: TOOBIG; BADSTART for a start beyond the file's length; RAGGED.
 * Writes: rows, how many rows the file has.
 */
crest_result crest_check_bursts(const uint8_t *file, size_t file_len, uint64_t start, uint64_t *rows);

/*
 * reader::read_row of a labelled file. Reads count bytes of a row, from its byte first on, going through the file
 * from its first byte; rows are numbered from 0.
 * Refuses: as crest_check_labelled, wherever in the file the fault stands; then NOROW, NOPART.
 * Writes: shown, of which bytes is count and nesting is known.
 */
crest_result crest_read_row_labelled(const uint8_t *file, size_t file_len, bool version_2, uint64_t row, uint64_t first,
                                     uint64_t count, crest_row *shown);

/*
 * reader::read_row of a waveform file. Passes 2,080 bytes for each earlier row.
 * Refuses: TOOBIG, RAGGED, NOROW, NOPART.
 * Writes: shown, of which bytes is count and nesting is known.
 */
crest_result crest_read_row_waveform(const uint8_t *file, size_t file_len, uint64_t row, uint64_t first, uint64_t count,
                                     crest_row *shown);

/*
 * reader::read_row of a burst file. Passes 1,272 bytes for each earlier row, from start on.
 * Refuses: TOOBIG, BADSTART, RAGGED, NOROW, NOPART.
 * Writes: shown, of which bytes is count and nesting is known.
 */
crest_result crest_read_row_bursts(const uint8_t *file, size_t file_len, uint64_t start, uint64_t row, uint64_t first,
                                   uint64_t count, crest_row *shown);

/*
 * reader::jump_row of a labelled file. Takes the entry of the row's group of 16 from list and walks on from there. It passes the 20
 * bytes of a label of class Z, U or F whatever length that claims, in either version. With a list that crest_check_index, told
 * the same choice, accepts, the answer is that of crest_read_row_labelled without its depth; with another one it is of no use to a reader.
 * Refuses: TOOBIG; NOROW for a missing entry; BADINDEX for an entry beyond the file's length; then as the walk meets it,
 * SHORT, BADLABEL, in version 1 BADLENGTH, OVERRUN with the label's place, or NOROW at the end of the file; NOPART.
 * Writes: shown, of which bytes is count and nesting is absent.
 */
crest_result crest_jump_labelled(const uint8_t *file, size_t file_len, bool version_2, const uint32_t *list, size_t list_len,
                                 uint64_t row, uint64_t first, uint64_t count, crest_row *shown);

/*
 * reader::jump_row of a waveform file. Computes the row's place.
 * Refuses: TOOBIG, RAGGED, NOROW, NOPART.
 * Writes: shown, of which bytes is count and nesting is known.
 */
crest_result crest_jump_waveform(const uint8_t *file, size_t file_len, uint64_t row, uint64_t first, uint64_t count,
                                 crest_row *shown);

/*
 * reader::jump_row of a burst file. Computes the row's place, start and a multiple of 1,272.
 * Refuses: TOOBIG, BADSTART, RAGGED, NOROW, NOPART.
 * Writes: shown, of which bytes is count and nesting is known.
 */
crest_result crest_jump_bursts(const uint8_t *file, size_t file_len, uint64_t start, uint64_t row, uint64_t first,
                               uint64_t count, crest_row *shown);

/*
 * reader::row_from of a labelled file. Gives the whole row whose label comes first from the place from on. To go through an accepted
 * file row by row, begin at 0 and go on at place + bytes of each row, until NOROW.
 * Refuses: TOOBIG; NOROW for a place beyond the file's length; then as the walk meets it, SHORT, BADLABEL, in version 1
 * BADLENGTH, OVERRUN with the label's place, or NOROW at the end of the file.
 * Writes: shown, of which bytes is the row's length and nesting is absent.
 */
crest_result crest_row_from_labelled(const uint8_t *file, size_t file_len, bool version_2, uint64_t from, crest_row *shown);

/*
 * reader::row_from of a waveform file. Gives the whole row that begins, with its prefix, at the place from. To go through a file row by
 * row, begin at 0 and go on at place + bytes of each row, until NOROW.
 * Refuses: TOOBIG, RAGGED; NOROW where from is no multiple of 2,080, or at or beyond the end of the file.
 * Writes: shown, of which place is from + 32, bytes is 2,048 and nesting is known.
 */
crest_result crest_row_from_waveform(const uint8_t *file, size_t file_len, uint64_t from, crest_row *shown);

/*
 * reader::row_from of a burst file. Gives the whole row that begins at the place from. To go through a file row by row, begin at
 * start and go on at place + bytes of each row, until NOROW.
 * Refuses: TOOBIG, BADSTART, RAGGED; NOROW where from is in front of start, not a multiple of 1,272 behind it, or at or beyond
 * the end of the file.
 * Writes: shown, of which place is from, bytes is 1,272 and nesting is known.
 */
crest_result crest_row_from_bursts(const uint8_t *file, size_t file_len, uint64_t start, uint64_t from, crest_row *shown);

/* ---- A labelled file and its substitute ---- */

/*
 * substitute::read_row of two labelled files. Gives a whole row of the substitute, if crest_check_labelled accepts that file and it
 * has the row; the original is then not looked at. Else it gives the whole row of the original. version_2 holds for both files.
 * Refuses: only where neither file serves, and then for the original alone: as crest_check_labelled; then NOROW.
 * Writes: source, one of enum crest_source; shown, whose places are those in that file, of which bytes is the row's length and
 * nesting is known.
 */
crest_result crest_substitute_row(const uint8_t *original, size_t original_len, const uint8_t *substitute,
                                  size_t substitute_len, bool version_2, uint64_t row, uint64_t *source, crest_row *shown);

/* ---- The index of a labelled file, and what is kept of it ---- */

/*
 * row_index::build_index. Writes the places of the labels of rows 0, 16, 32 and so on.
 * Refuses: as crest_check_labelled; then SMALL.
 * Writes: the first entries numbers of list; entries and rows, how many of each the file has.
 */
crest_result crest_build_index(const uint8_t *file, size_t file_len, bool version_2, uint32_t *list, size_t list_len,
                               uint64_t *entries, uint64_t *rows);

/*
 * row_index::check_index. Answers exactly when the file is accepted and the whole list is its index.
 * Refuses: as crest_check_labelled; then BADINDEX.
 * Writes: nothing.
 */
crest_result crest_check_index(const uint8_t *file, size_t file_len, bool version_2, const uint32_t *list, size_t list_len);

/*
 * joined::join_index. Writes the index of two files set end to end, the bytes of first and then those of second, from the files and
 * their indexes; no joined file is built. Its rows are those of first and then those of second, whose places grow by first_len.
 * version_2 holds for both files.
 * Refuses: TOOBIG where first_len and second_len come to more than 4,294,967,295, whatever the files are; then as crest_check_index
 * for first and first_list; the same for second and second_list, with places in second; SMALL.
 * Writes: the first entries numbers of list; entries and rows, how many of each the joined file has.
 */
crest_result crest_joined_index(const uint8_t *first, size_t first_len, const uint32_t *first_list, size_t first_list_len,
                                const uint8_t *second, size_t second_len, const uint32_t *second_list, size_t second_list_len,
                                bool version_2, uint32_t *list, size_t list_len, uint64_t *entries, uint64_t *rows);

/*
 * kept::keep. Writes an index as bytes to keep, of kind 1: 6, and 4 for each entry.
 * Refuses: TOOBIG for more than 1,073,741,823 entries; SMALL.
 * Writes: the first written bytes of out; written.
 */
crest_result crest_keep_index(const uint32_t *list, size_t list_len, uint8_t *out, size_t out_len, uint64_t *written);

/*
 * kept::load. Reads an index that was kept, of kind 1. Whether it belongs to a file, crest_check_index says.
 * Refuses: BADKEPT, also for kind 2; SMALL.
 * Writes: the first entries numbers of list; entries.
 */
crest_result crest_load_kept(const uint8_t *bytes, size_t bytes_len, uint32_t *list, size_t list_len, uint64_t *entries);

/*
 * kept_rows::load. Reads an index that was kept with the row count, of kind 2. Whether both belong to a file, crest_check_kept2 says.
 * Refuses: BADKEPT, also for kind 1; SMALL.
 * Writes: the first entries numbers of list; rows, as it stands there; entries.
 */
crest_result crest_load_kept2(const uint8_t *bytes, size_t bytes_len, uint32_t *list, size_t list_len, uint64_t *rows,
                              uint64_t *entries);

/*
 * kept_check::to_kind_2. Writes a kept index of kind 1 as one of kind 2, with the row count of its file: 10 bytes, and 4 for each
 * entry.
 * Refuses: as crest_check_labelled; then BADKEPT; BADINDEX where the list is not the whole index of the file; SMALL.
 * Writes: the first written bytes of out; written.
 */
crest_result crest_convert_1_to_2(const uint8_t *file, size_t file_len, bool version_2, const uint8_t *kept, size_t kept_len,
                                  uint8_t *out, size_t out_len, uint64_t *written);

/*
 * kept_rows::to_kind_1. Writes a kept index of kind 2 as one of kind 1, without the row count: 6 bytes, and 4 for each entry.
 * Refuses: BADKEPT, SMALL.
 * Writes: the first written bytes of out; written.
 */
crest_result crest_convert_2_to_1(const uint8_t *kept, size_t kept_len, uint8_t *out, size_t out_len, uint64_t *written);

/*
 * kept_check::check. Answers exactly when the file is accepted, kept is an index of kind 2, its list is the whole index of the
 * file and its row count is the file's.
 * Refuses: as crest_check_labelled; then BADKEPT, BADINDEX.
 * Writes: nothing.
 */
crest_result crest_check_kept2(const uint8_t *file, size_t file_len, bool version_2, const uint8_t *kept, size_t kept_len);

/* ---- Plotter lines ---- */

/*
 * A strip is a number of rows of a file from one of them on, and one window of each: its row y, counted from 0, is line y, and
 * byte x of the window stands at column x. A line is (count + 7) / 8 bytes, eight dots a byte, the leftmost highest and those
 * behind the last column 0; lines stand end to end. The dot at column x of line y is set exactly when the byte's tone is less
 * than 4 * m + 2, with m in row y % 8 and column x % 8 of the matrix that grows from
 *      0  2
 *      3  1
 * to 8 by 8, each time by 4 * m, 4 * m + 2, 4 * m + 3 and 4 * m + 1 in the quarters, left to right and top to bottom.
 */

/*
 * dots::tone. The tone of a sample, the largest t with t * t <= 255 * sample: 15 for 1, 127 for 64, 255 for 255. It refuses
 * nothing and returns the number itself.
 */
uint8_t crest_tone(uint8_t sample);

/*
 * plotter::strip of a labelled file. Draws as many rows as rows says, from number row on, by the window of count bytes from byte
 * first on. A strip of 0 rows has 0 bytes, whatever row and window. A row whose number passes 64 bits is a missing one, and
 * where the lines' bytes pass 64 bits there is no room for them.
 * Refuses: as crest_check_labelled, wherever in the file the fault stands; NOROW where any row of the strip is missing; then
 * NOPART where the window does not fit some row of it; SMALL.
 * Writes: the first written bytes of out, the lines; written, which is rows times the bytes of a line.
 */
crest_result crest_strip_labelled(const uint8_t *file, size_t file_len, bool version_2, uint64_t row, uint64_t rows,
                                  uint64_t first, uint64_t count, uint8_t *out, size_t out_len, uint64_t *written);

/*
 * plotter::strip of a waveform file.
 * Refuses: TOOBIG, RAGGED; NOROW where any row of the strip is missing; NOPART; SMALL.
 * Writes: as crest_strip_labelled.
 */
crest_result crest_strip_waveform(const uint8_t *file, size_t file_len, uint64_t row, uint64_t rows, uint64_t first,
                                  uint64_t count, uint8_t *out, size_t out_len, uint64_t *written);

/*
 * plotter::strip of a burst file.
 * Refuses: TOOBIG, BADSTART, RAGGED; NOROW where any row of the strip is missing; NOPART; SMALL.
 * Writes: as crest_strip_labelled.
 */
crest_result crest_strip_bursts(const uint8_t *file, size_t file_len, uint64_t start, uint64_t row, uint64_t rows,
                                uint64_t first, uint64_t count, uint8_t *out, size_t out_len, uint64_t *written);

/*
 * trace::behind of a labelled file. Says which byte stands behind the dot at a column and a line of the strip that begins at
 * number row with this window: byte first + column of the row with number row + line. In every strip that is drawn, the bit at
 * that place of the lines is dot.
 * Refuses: as crest_read_row_labelled for that row and the window, NOROW also where row + line is not below 2^64; then NOPART
 * where column is not below count.
 * Writes: behind.
 */
crest_result crest_behind_labelled(const uint8_t *file, size_t file_len, bool version_2, uint64_t row, uint64_t first,
                                   uint64_t count, uint64_t column, uint64_t line, crest_dot *behind);

/*
 * trace::behind of a waveform file.
 * Refuses: TOOBIG, RAGGED, NOROW; NOPART for the window, then for the column.
 * Writes: behind.
 */
crest_result crest_behind_waveform(const uint8_t *file, size_t file_len, uint64_t row, uint64_t first, uint64_t count,
                                   uint64_t column, uint64_t line, crest_dot *behind);

/*
 * trace::behind of a burst file.
 * Refuses: TOOBIG, BADSTART, RAGGED, NOROW; NOPART for the window, then for the column.
 * Writes: behind.
 */
crest_result crest_behind_bursts(const uint8_t *file, size_t file_len, uint64_t start, uint64_t row, uint64_t first,
                                 uint64_t count, uint64_t column, uint64_t line, crest_dot *behind);

/* ---- Numbers ---- */

/* waveform::sample. Twice the amplitude of a sample, 2 * sample - 255. It refuses nothing and returns the number itself. */
int64_t crest_sample(uint8_t sample);

/*
 * vax::vax_f. Reads a VAX F number from the first 4 bytes, exactly.
 * Refuses: SHORT, RESERVED.
 * Writes: number.
 */
crest_result crest_vax_f(const uint8_t *bytes, size_t bytes_len, double *number);

/*
 * vax::vax_d. Reads a VAX D number from the first 8 bytes as the nearest double, a tie going to the even one.
 * Refuses: SHORT, RESERVED.
 * Writes: number.
 */
crest_result crest_vax_d(const uint8_t *bytes, size_t bytes_len, double *number);

/*
 * vax::vax_d_dropped. Reads a VAX D number from the first 8 bytes, without the three lowest of its 55 fraction bits, for old jobs: what
 * crest_vax_d gives, or the next double towards zero.
 * Refuses: SHORT, RESERVED.
 * Writes: number.
 */
crest_result crest_vax_d_dropped(const uint8_t *bytes, size_t bytes_len, double *number);

/*
 * orbit::per_orbit_opening. Reads the opening of the Magellan per-orbit parameters from the first 20 bytes of its data block, which in
 * a record of file 12 begins 8 bytes into the value, behind the secondary header.
 * Refuses: SHORT; RESERVED with place 4 for the start, then with place 12 for the stop.
 * Writes: orbit; start and stop, in seconds, as crest_vax_d reads them.
 */
crest_result crest_opening(const uint8_t *bytes, size_t bytes_len, uint64_t *orbit, double *start, double *stop);

/*
 * verdicts::verdict. Compares a value with the limits of an element, 4.4.element of the TOPEX altimeter's elements.
 * Refuses: UNKNOWN.
 * Writes: verdict, one of enum crest_verdict_number; the limits themselves are inside.
 */
crest_result crest_verdict(uint64_t element, int64_t value, uint64_t *verdict);

/* ---- Short bursts ---- */

/*
 * burst_fields::field. Reads a field of a row of a burst file. position is its number in the list of a record's fields, 1 to 255.
 * Refuses: TOOBIG, BADSTART, RAGGED, NOROW; UNKNOWN for another position.
 * Writes: type, one of enum crest_field_type; bits, the number, of a signed one its 64 bits in two's complement, of a float
 * its stored bits, of a text 0; place and shown, of a text its place in the file and how many bytes it has, else 0 and 0.
 */
crest_result crest_burst_field(const uint8_t *file, size_t file_len, uint64_t start, uint64_t row, uint64_t position,
                               uint64_t *type, uint64_t *bits, uint64_t *place, uint64_t *shown);

/*
 * burst_fields::verdict. Compares a field of a row of a burst file with its limits, which are stated for some of the integers.
 * Refuses: TOOBIG, BADSTART, RAGGED, NOROW; UNKNOWN for a field without limits, and for a position other than 1 to 255.
 * Writes: verdict, one of enum crest_verdict_number; the limits themselves are inside.
 */
crest_result crest_burst_verdict(const uint8_t *file, size_t file_len, uint64_t start, uint64_t row, uint64_t position,
                                 uint64_t *verdict);

/*
 * burst_codes::beams. How many beams a mask, field 33 of a burst, enables. It refuses nothing. It returns CREST_INSIDE and writes
 * beams for a mask from 0 to 31; for a larger one it returns CREST_ABOVE and writes nothing, as there is no such number.
 */
uint64_t crest_beams(uint64_t mask, uint64_t *beams);

/*
 * burst_codes::mode. The compression mode with this number, field 34 of a burst. It refuses nothing and returns one of
 * enum crest_mode_number: the number itself for 0 to 7, and CREST_MODE_UNNAMED for every larger one.
 */
uint64_t crest_mode(uint64_t number);

#ifdef __cplusplus
}
#endif

#endif
