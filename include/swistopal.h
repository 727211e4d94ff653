/*
 * Swistopal: RocketMQ's commit log, consume queues and index file on lent buffers.
 *
 * Seven operations, and six small functions that tell what a record makes. Each is total: any numbers and any bytes
 * bring an answer. The answer and every lent byte afterwards depend on the arguments alone; nothing is kept between
 * calls.
 *
 * A buffer is a pointer and a length. The pointer of a buffer of length 0 may be anything that is not null. A pointer
 * to a struct or to a single number is never null.
 *
 * A buffer that a call writes must not overlap any other buffer of that call. Buffers that a call only reads may
 * overlap each other. Structs and single numbers that a call writes count as buffers here.
 *
 * Every member of a struct is a uint64_t. Numbers that Java has as signed (queue id, flags, tag code, ..) are passed as
 * their bit patterns, unsigned.
 *
 * Sizes
 *   S  segment size            1,024 to 1,073,741,824
 *   B  first log position      a multiple of S; B + log_len at most 2^40
 *      log_len                 a positive multiple of S
 *   R  entries of a queue      1 to 300,000, 20 bytes each
 *   K  slots of an index file  1 to 5,000,000
 *   N  items of an index file  2 to 20,000,000; place 0 is never used, so N - 1 items fit
 *      length of an index file 40 + 4 K + 20 N
 *      times                   0 to 2^48 - 1
 *
 * Text: a record's topic, and the values of TAGS, KEYS and UNIQ_KEY that count (of each name the last pair), are UTF-8
 * as RFC 3629 has it: no overlong forms, no surrogates, nothing above 10FFFF, no cut characters, no stray bytes. A
 * record of whatever transaction type with other bytes there is not sound: 5 from an append, 10 where it is read. A
 * query whose topic or key is not UTF-8, each by itself, is 17. Not judged are names, other values, earlier pairs of a
 * name, pieces that are no pair, bodies and the topics of a directory; lengths are in bytes. Hashes are those of Java's
 * strings, over UTF-16 units: C3 A9 gives 233.
 *
 * Directory: rows that fill the buffer exactly, 1 to 16 of them, no two with the same topic and queue id. A row, little
 * endian: length of the whole row (2 bytes, 9 to 135), kind (2 bytes, value 1), queue id (4 bytes, below 2^31), topic.
 * Row i owns region i of the queue buffer: R entries from byte i * R * 20 on. queues_len is rows * R * 20.
 */
#ifndef SWISTOPAL_H
#define SWISTOPAL_H

#include <stddef.h>
#include <stdint.h>

#ifdef __cplusplus
extern "C" {
#endif

/* The answers. "Whole steps": the steps reported stand and nothing of the next one does. */
enum swistopal_answer {
    SWISTOPAL_DONE = 0,              /* done, caught up, chain ended or enough found */
    SWISTOPAL_BAD_SIZES = 1,         /* S, B, R, K or N breaks its limit, or log or index has another length */
    SWISTOPAL_BAD_POSITION = 2,      /* position, readable end or entry count is bad */
    SWISTOPAL_BAD_DIRECTORY = 3,     /* directory bad or not 1 to 16 rows, or queue buffer not rows * R * 20 */
    SWISTOPAL_BAD_HEADER = 4,        /* index header bad */
    SWISTOPAL_BAD_REQUEST = 5,       /* append request outside the record rules */
    SWISTOPAL_LOG_FULL = 6,          /* log full */
    SWISTOPAL_BLANK_WRITTEN = 7,     /* blank written, try again at the new position */
    SWISTOPAL_NOT_READABLE = 8,      /* record not wholly below the readable end; whole steps */
    SWISTOPAL_BUDGET_SPENT = 9,      /* budget spent; whole steps */
    SWISTOPAL_DAMAGED = 10,          /* record damaged; whole steps */
    SWISTOPAL_QUEUE_NOT_LISTED = 11, /* queue not listed; whole steps */
    SWISTOPAL_OUT_OF_STEP = 12,      /* queue out of step; whole steps */
    SWISTOPAL_QUEUE_FULL = 13,       /* queue full; whole steps */
    SWISTOPAL_INDEX_FULL = 14,       /* index full; whole steps */
    SWISTOPAL_INDEX_AHEAD = 15,      /* index ahead of the log; whole steps */
    SWISTOPAL_CHAIN_BROKEN = 16,     /* chain broken; dispatch: whole steps; query: matches so far */
    SWISTOPAL_MALFORMED = 17         /* query or queue reading malformed */
};

/* The sizes of a store. A call looks only at those that its answer 1 names. */
typedef struct swistopal_sizes {
    uint64_t segment_size;   /* S */
    uint64_t first_position; /* B */
    uint64_t queue_entries;  /* R */
    uint64_t slot_count;     /* K */
    uint64_t item_count;     /* N */
} swistopal_sizes;

/* How far dispatch has come: the next log position, and the entry counts of the directory's rows 0 to 15. */
typedef struct swistopal_progress {
    uint64_t position;
    uint64_t counts[16];
} swistopal_progress;

/* The numbers of a record that its sender or the broker chose. A record keeps body_crc, queue_id, flag, system_flag and
 * reconsume_times in 4 bytes. */
typedef struct swistopal_fields {
    uint64_t body_crc, queue_id, flag, queue_offset, system_flag, born_time, store_time, reconsume_times, prepared_offset;
} swistopal_fields;

/* A run of bytes. */
typedef struct swistopal_place {
    uint64_t at, length;
} swistopal_place;

/* Kinds of a swistopal_record. */
enum swistopal_record_kind { SWISTOPAL_RECORD = 1, SWISTOPAL_BLANK = 2 };

/* What stands at a log position. Places count from the record's first byte; an empty part is where it would stand. */
typedef struct swistopal_record {
    uint64_t kind;     /* SWISTOPAL_RECORD or SWISTOPAL_BLANK; 0 on every answer but 0 */
    uint64_t total;    /* of the record or the blank */
    uint64_t position; /* the record's own log position field */
    swistopal_fields fields;
    swistopal_place born_host, store_host, body, topic, properties;
} swistopal_record;

/* What a query found: so many positions stand at the start of the output, and so many items were read. */
typedef struct swistopal_found {
    uint64_t positions, items_read;
} swistopal_found;

/* A stretch of the log in figures. A row is one of the directory's; rows that it does not have are 0. */
typedef struct swistopal_figures {
    uint64_t records, blanks, body_bytes;
    uint64_t smallest, largest;                /* of the records' totals; both 0 without a record */
    uint64_t rows[16], unlisted;               /* records of any type, by their queue */
    uint64_t none, prepared, commit, rollback; /* records by their transaction type */
    uint64_t items;                            /* index items of all records but rollbacks */
} swistopal_figures;

/* Where the three values that matter stand in a record's properties; length 0 where there is none. */
typedef struct swistopal_values {
    swistopal_place tags, keys, unique_key;
} swistopal_values;

/* Least length of the text buffer of swistopal_list. */
#define SWISTOPAL_TEXT_BYTES 65536

/*
 * Append one record at *write_position.
 *
 * The body checksum is carried, never computed or judged. Total, magic, log position and the three lengths are made
 * here.
 *
 * Answers, judged in this order:
 *   1  S, B or log_len
 *   2  *write_position outside B to B + log_len, or 1 to 7 bytes remain in its segment
 *   5  the record could not be sound at a segment's start: topic not 1 to 127 bytes, properties above 32,767 bytes,
 *      total above S - 8 or 4,194,304, store time above 2^48 - 1, queue id of 2^31 or more, system flag bit 16 or 32,
 *      text that is not UTF-8; or a host is not 8 bytes long, or a number that the record keeps in 4 bytes is above
 *      2^32 - 1
 *   6  *write_position is the log's end, or the record does not fit and no segment follows
 *   7  the record does not fit into this segment: a blank of 8 bytes is written, *write_position is the next segment's
 *      start; call again
 *   0  the record's bytes stand at the old *write_position, which has grown by their number
 * On 1, 2, 5 and 6 nothing is changed. On 0 and 7 no other byte of the log is changed.
 *
 * log and write_position are written: neither may overlap the other or anything else that is passed.
 */
uint32_t swistopal_append(
    uint8_t *log, size_t log_len, const swistopal_sizes *sizes, const swistopal_fields *fields,
    const uint8_t *born_host, size_t born_host_len, const uint8_t *store_host, size_t store_host_len,
    const uint8_t *body, size_t body_len, const uint8_t *topic, size_t topic_len,
    const uint8_t *properties, size_t properties_len, uint64_t *write_position);

/*
 * Read what stands at position: a record or a blank.
 *
 * Answers; 1 is judged before 2, and both before the rest:
 *   1   S, B or log_len
 *   2   not B <= position <= readable_end <= B + log_len
 *   8   position is readable_end, or what stands there is not wholly below readable_end
 *   10  damaged: not a sound record and not a blank. Below readable_end this comes before 8 where fewer than 8 bytes
 *       remain in the segment, or where the first 8 bytes (total and magic) are readable and bad; any other damage, text
 *       that is not UTF-8 too, shows once the whole record is readable
 *   0   *record tells the record or the blank; of a blank all but kind and total are 0
 * On 1, 2, 8 and 10 all of *record is 0. No byte at or above readable_end decides anything.
 *
 * record is written and must not overlap log or sizes.
 */
uint32_t swistopal_read_record(
    const uint8_t *log, size_t log_len, const swistopal_sizes *sizes,
    uint64_t position, uint64_t readable_end, swistopal_record *record);

/*
 * Dispatch records from progress->position on to their queues and to the index, one step for each record or blank, at
 * most budget steps. files is the index file.
 *
 * Refusals, judged in this order:
 *   1   S, B, log_len, R, K, N or files_len
 *   3   directory, or queues_len
 *   2   not B <= progress->position <= readable_end <= B + log_len, or one of the 16 counts is above R
 *   4   index header bad
 * Stops, judged in this order before each step:
 *   9   budget steps are done
 *   0   caught up: progress->position is readable_end
 *   8 or 10  as in swistopal_read_record
 *   11  the queue is not listed
 *   12  the queue offset is not the queue's count
 *   13  the queue is full
 *   15  the index has an item and its last position is not below this record
 *   14  the index has no room for all items of the record
 *   16  a slot that the items need holds a number below 0 or not below the used count
 * 11 to 13 concern records that make a queue entry: transaction type none or commit (system flag bits 4 and 8 are 0 or
 * 8). 14 to 16 concern records that make index items: every type but rollback (12), with a unique key or keys.
 * On a refusal nothing is changed and *steps is 0. On a stop the *steps steps stand: progress, queues and index are
 * those after them, and nothing of the next record is written.
 *
 * queues, files, progress and steps are written: none of them may overlap another one or anything else that is passed.
 */
uint32_t swistopal_dispatch(
    const uint8_t *log, size_t log_len, uint64_t readable_end, const swistopal_sizes *sizes,
    const uint8_t *directory, size_t directory_len, uint8_t *queues, size_t queues_len, uint8_t *files, size_t files_len,
    uint64_t budget, swistopal_progress *progress, uint64_t *steps);

/*
 * Read log positions from a queue: of entries start to the row's count, in order, up to wanted of them (0: none).
 * tag_given 0: every entry; anything else: those with tag_code. Positions are as stored and not judged. Of progress only
 * the counts are looked at.
 *
 * Answers, judged in this order:
 *   1   R
 *   3   directory, or queues_len
 *   2   one of the 16 counts is above R
 *   17  no such row, start above the row's count, or wanted above out_len
 *   0   *found positions stand at the start of out
 * On 1, 3, 2 and 17 *found is 0 and out is unchanged. On 0 out past *found is unchanged.
 *
 * out and found are written: neither may overlap the other or anything else that is passed.
 */
uint32_t swistopal_read_queue(
    const uint8_t *queues, size_t queues_len, const swistopal_sizes *sizes,
    const uint8_t *directory, size_t directory_len, const swistopal_progress *progress,
    uint64_t row, uint64_t start, uint64_t wanted, uint32_t tag_given, uint64_t tag_code,
    uint64_t *out, size_t out_len, uint64_t *found);

/*
 * Query one index file: log positions of items with the hash of topic and key and a recorded time from first_time to
 * last_time, newest first, up to wanted of them (0 means 32). Other keys may share the hash: read the record to be sure.
 * The recorded time is the index's first time plus whole seconds.
 *
 * Answers, judged in this order:
 *   1   K, N or index_len
 *   4   index header bad
 *   17  topic not 1 to 127 bytes of UTF-8, key not 1 to 32,767 bytes of UTF-8, a time above 2^48 - 1, first_time above
 *       last_time, or the number wanted above out_len
 *   16  the chain is broken; what was found before stands
 *   0   the chain ended, an item before first_time was met, or enough was found
 * found->positions positions stand at the start of out; found->items_read counts the items read, a bad one included. On
 * 1, 4 and 17 both are 0 and out is unchanged. On 0 and 16 out past the positions is unchanged.
 *
 * out and found are written: neither may overlap the other or anything else that is passed.
 */
uint32_t swistopal_query(
    const uint8_t *index, size_t index_len, const swistopal_sizes *sizes,
    const uint8_t *topic, size_t topic_len, const uint8_t *key, size_t key_len,
    uint64_t first_time, uint64_t last_time, uint64_t wanted, uint64_t *out, size_t out_len, swistopal_found *found);

/*
 * List one segment as text: a header line, a line for each record or blank, a stop line; each ends with a line feed.
 * The segment is read as a log with B = 0, S and readable end its length.
 *
 * Answers:
 *   17  text_len is below 65,536: *written is 0, text is unchanged
 *   1   segment_len is not 1,024 to 65,536: the text is the header line and "stop 1"
 *   10  a damaged record: the text goes up to it and ends with "stop 10"
 *   0   the whole segment is listed
 * On 1, 10 and 0 *written is the text's length; text past it is unchanged. No zero byte is written at the end.
 *
 * text and written are written: neither may overlap the other or segment.
 */
uint32_t swistopal_list(const uint8_t *segment, size_t segment_len, uint8_t *text, size_t text_len, uint64_t *written);

/*
 * Report a stretch of the log in figures: its records and blanks from position on, up to readable_end or to where one
 * cannot be read. Nothing but log and directory is looked at, so it can be asked before anything is dispatched.
 *
 * Refusals, judged in this order:
 *   1   S, B or log_len
 *   3   directory
 *   2   not B <= position <= readable_end <= B + log_len
 * Stops:
 *   0   at readable_end
 *   8 or 10  as in swistopal_read_record
 * On a refusal every figure is 0. On a stop the figures are those of what stands before it; what stops it is not in
 * them. The figures of neighbouring stretches, the first of which stops with 0, add up, but for smallest and largest.
 *
 * figures is written and must not overlap anything else that is passed.
 */
uint32_t swistopal_report(
    const uint8_t *log, size_t log_len, const swistopal_sizes *sizes, uint64_t position, uint64_t readable_end,
    const uint8_t *directory, size_t directory_len, swistopal_figures *figures);

/*
 * What a record makes, so that no other program has to repeat a rule. None of these has an answer: the number returned is
 * the thing itself, 1 and 0 are yes and no. They take any bytes and judge no text.
 */

/* A tag's code, as a queue entry holds it. Of bytes that are not UTF-8: the code of the characters before the first
 * place where none stands. */
uint64_t swistopal_tag_code(const uint8_t *tag, size_t tag_len);

/* Whether a record with this system flag makes a queue entry. */
uint32_t swistopal_makes_entry(uint64_t system_flag);

/* How many index items a record with this system flag and these properties makes. */
uint64_t swistopal_item_count(uint64_t system_flag, const uint8_t *properties, size_t properties_len);

/* Whether a topic and key are, byte for byte, among the items of a record with this system flag, topic and properties. */
uint32_t swistopal_has_item(
    uint64_t system_flag, const uint8_t *record_topic, size_t record_topic_len,
    const uint8_t *properties, size_t properties_len,
    const uint8_t *topic, size_t topic_len, const uint8_t *key, size_t key_len);

/* Where the values of TAGS, KEYS and UNIQ_KEY stand in a record's properties: of each name the last pair. values is
 * written and must not overlap properties. */
void swistopal_find_values(const uint8_t *properties, size_t properties_len, swistopal_values *values);

/* Whether an index file has its length and a sound header: 1 for K, N or index_len, 4 for the header, 0 for neither. */
uint32_t swistopal_check_index(const uint8_t *index, size_t index_len, const swistopal_sizes *sizes);

#ifdef __cplusplus
}
#endif

#endif
