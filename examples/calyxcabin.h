/* calyxcabin.h: the proved library for C, crates/exports/out/libexports.a (`tools/build-archive`), for x86-64 Linux.
 *
 * What each function answers and leaves is said by its contract in crates/exports/src/lib.rt, for every input: it asks nothing of the bytes
 * and words that it is lent. What a caller owes:
 *
 *   pointers   Every pointer is that of memory of the length given, which nobody else writes during the call; what is written (all that is
 *              not `const`) nobody else reads either, and overlaps nothing else. Where the length is 0 the pointer may be any that is not
 *              NULL.
 *   alignment  uint64_t to 8 bytes, int32_t to 4. Memory of malloc has it.
 *   stack      A load takes up to 1.5 MB of the calling thread's stack, an amendment 1.1 MB, a question or a soundness test 0.6 MB, whatever they
 *              are handed: give a thread 2 MB or more.
 *   threads    There is no state: calls on different memory may run at the same time, and so may questions on the same tables.
 *   room       A table's room in lines is its length divided by the words of its row (calyxcabin_width), rounded down. Tables are laid out in
 *              docs/TABLES.md, and may hold anything before a load.
 *
 * Files and tables stand in reading order: DELIVERY, COMPANY, COUNTRY, TRNSMODE, TIMEZONE, STATIONS, FOOTNOTE, TIMETBLS, CHANGES, XFOOTNOTE,
 * XCHANGES. An absent file has length 0. Lengths are in bytes for files and in words for tables.
 */
#ifndef CALYXCABIN_H
#define CALYXCABIN_H

#include <stddef.h>
#include <stdint.h>

enum { CALYXCABIN_FILES = 11 };

/* The words of a row, by file. */
static const size_t calyxcabin_width[CALYXCABIN_FILES] = {6, 6, 6, 6, 6, 6, 14, 7, 6, 14, 7};

/* The words of a question and of an answer on a sheet. */
enum { CALYXCABIN_QUESTION = 6, CALYXCABIN_ANSWER = 8 };

/* A file, and a table; and eleven of them as the functions take them. */
typedef struct {
    const uint8_t *bytes;
    size_t length;
} calyxcabin_file;

typedef struct {
    uint64_t *words;
    size_t length;
} calyxcabin_table;

#define CALYXCABIN_ALL(a, of) \
    (a)[0].of, (a)[0].length, (a)[1].of, (a)[1].length, (a)[2].of, (a)[2].length, (a)[3].of, (a)[3].length, (a)[4].of, (a)[4].length, \
        (a)[5].of, (a)[5].length, (a)[6].of, (a)[6].length, (a)[7].of, (a)[7].length, (a)[8].of, (a)[8].length, (a)[9].of, (a)[9].length, \
        (a)[10].of, (a)[10].length
#define CALYXCABIN_TEXTS(files) CALYXCABIN_ALL(files, bytes)
#define CALYXCABIN_TABLES(tables) CALYXCABIN_ALL(tables, words)

#define CALYXCABIN_ELEVEN(kind) \
    kind *, size_t, kind *, size_t, kind *, size_t, kind *, size_t, kind *, size_t, kind *, size_t, kind *, size_t, kind *, size_t, \
        kind *, size_t, kind *, size_t, kind *, size_t

#ifdef __cplusplus
extern "C" {
#endif

/* Loads a delivery: calyxcabin_load(CALYXCABIN_TEXTS(files), CALYXCABIN_TABLES(tables), answer).
 * answer[6]: the refusal's number, or 0; its file from 1, its block's ordinal, its line; days and services. Refused, all tables are zero. */
void calyxcabin_load(CALYXCABIN_ELEVEN(const uint8_t), CALYXCABIN_ELEVEN(uint64_t), uint64_t *answer);

/* Replaces the lines of a service by a block's: the tables DELIVERY to FOOTNOTE, TIMETBLS to be written, CHANGES to XCHANGES; the service; the
 * block. answer[6] as of a load. Refused, TIMETBLS is as it was. calyxcabin_amend(CALYXCABIN_TABLES(tables), service, block, length, answer). */
void calyxcabin_amend(
    const uint64_t *, size_t, const uint64_t *, size_t, const uint64_t *, size_t, const uint64_t *, size_t, const uint64_t *, size_t,
    const uint64_t *, size_t, const uint64_t *, size_t, uint64_t *timetbls, size_t, const uint64_t *, size_t, const uint64_t *, size_t,
    const uint64_t *, size_t, uint64_t service, const uint8_t *block, size_t block_length, uint64_t *answer);

/* 0 where the tables are sound, else 16. Every question tests it first. */
uint64_t calyxcabin_is_sound(CALYXCABIN_ELEVEN(const uint64_t));

/* answer[2]: the refusal's number, or 0; 1 runs, 2 rests. A date is the number DDMMYYYY. */
void calyxcabin_running_day(CALYXCABIN_ELEVEN(const uint64_t), uint64_t service, uint64_t leg, uint64_t date, uint64_t *answer);

/* answer[4]: the refusal's number, or 0; the station's short name, packed with its first byte highest; 1 where there is an arrival; 1 where
 * there is a departure. minutes[4]: arrival local and reference, departure local and reference; 0 where there is none. All count from 0000 of the
 * service day; reference minutes go by the zone's period on the day that the local ones fall on. */
void calyxcabin_stop_time(
    CALYXCABIN_ELEVEN(const uint64_t), uint64_t service, uint64_t stop, uint64_t date, uint64_t *answer, int32_t *minutes);

/* answer[7]: the refusal's number, or 0; 1 No, 2 Yes, 3 Unsettled; why not: 1 same service and date, 2 from rests, 3 to rests, 4 stations
 * differ, 5 nobody alights, 6 nobody boards, 7 pair 00, 8 flag 0, 9 gap below needed; 1 where the gap is reached; the source: 1 CHANGES,
 * 2 STATIONS, 3 XCHANGES; 1 where the needed time is reached; the needed time. gap[1]: minutes. */
void calyxcabin_change(
    CALYXCABIN_ELEVEN(const uint64_t), uint64_t from_service, uint64_t from_stop, uint64_t from_date, uint64_t to_service, uint64_t to_stop,
    uint64_t to_date, uint64_t *answer, int32_t *gap);

/* A sheet of changes, for which the tables are tested once. questions: from service, stop and date, to service, stop and date, six words for
 * each change. answers: eight words for each, the seven of calyxcabin_change and the gap, a 64-bit two's complement number. A list has as many
 * entries as its length divided by the words of one, rounded down. 0, or 16, or 23 where there is room for fewer answers than questions; then
 * no answer is written. A change that is refused has its number in its own answer. Words behind the answers stay as they were. */
uint64_t calyxcabin_sheet(
    CALYXCABIN_ELEVEN(const uint64_t), const uint64_t *questions, size_t questions_length, uint64_t *answers, size_t answers_length);

/* The rank of an exception by its four keys as the table of XCHANGES holds them (docs/TABLES.md): the place of its pattern on the desk's card
 * (docs/CARD.md), from 0, all wildcards, to 15, none. */
uint64_t calyxcabin_rank(uint64_t from_company, uint64_t from_mode, uint64_t to_company, uint64_t to_mode);

/* answer[3]: 0 or 17; where in the STATIONS file the name begins and ends. */
void calyxcabin_name(const uint8_t *stations, size_t stations_length, uint64_t short_name, uint64_t *answer);

/* answer[4]: 0 or 12; 0 for a part of the text, 1 for the block; where it begins and ends. */
void calyxcabin_lines_now(
    const uint8_t *text, size_t text_length, const uint8_t *block, size_t block_length, uint64_t service, uint64_t *answer);

#ifdef __cplusplus
}
#endif

#endif
