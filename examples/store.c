/*
 * A parcel sorter's events in a store: append records until one rolls into the next segment, report them, dispatch them,
 * read a queue, ask the index for one parcel and for one addressee. Every answer is checked; the program ends with 1 at the
 * first one that is not expected.
 * It is C11 and C++17.
 */
#include <stdio.h>
#include <string.h>

#include "swistopal.h"

enum {
    SEGMENT_SIZE = 1024,
    SEGMENTS = 2,
    QUEUE_ENTRIES = 16,
    SLOTS = 8,
    ITEMS = 32,
    INDEX_BYTES = 40 + 4 * SLOTS + 20 * ITEMS,
    EVENTS = 9,
    PLACES = 8
};

static const char TOPIC[] = "SORTER";

/* Müller: keys are text in any language, as UTF-8. */
static const char ADDRESSEE[] = "M\xc3\xbcller";
/* The same name as ISO 8859-1 has it, which is no UTF-8. */
static const char NO_TEXT[] = "M\xfcller";

/* 10.20.0.11:10911, as RocketMQ writes a host: four bytes of address, four of port. */
static const uint8_t HOST[8] = {10, 20, 0, 11, 0, 0, 0x2a, 0x9f};

static uint8_t store_log[SEGMENTS * SEGMENT_SIZE];
static uint8_t queues[QUEUE_ENTRIES * 20];
static uint8_t index_file[INDEX_BYTES];

/* One row: length 14, kind 1, queue id 0, topic. */
static const uint8_t directory[14] = {14, 0, 1, 0, 0, 0, 0, 0, 'S', 'O', 'R', 'T', 'E', 'R'};

static int expect(const char *call, uint32_t answer, uint32_t expected)
{
    if (answer == expected)
        return 1;
    fprintf(stderr, "%s answered %u, not %u\n", call, (unsigned)answer, (unsigned)expected);
    return 0;
}

static const uint8_t *bytes(const char *text)
{
    return (const uint8_t *)text;
}

/* By name: C++17 has no designated initializers. */
static swistopal_sizes sizes_of_store(void)
{
    swistopal_sizes sizes;
    sizes.segment_size = SEGMENT_SIZE;
    sizes.first_position = 0;
    sizes.queue_entries = QUEUE_ENTRIES;
    sizes.slot_count = SLOTS;
    sizes.item_count = ITEMS;
    return sizes;
}

/* One event of a parcel: the parcel is the unique key, each fourth has its addressee as a key, and the tag says whether the
 * event's number is odd or even. */
static uint32_t append_event(
    const swistopal_sizes *sizes, unsigned number, const char *addressee, uint64_t store_time, uint64_t *write_position)
{
    char body[32];
    char properties[96];
    int body_length = snprintf(body, sizeof body, "divert to chute %u", 120 + number);
    int properties_length = snprintf(
        properties, sizeof properties, "TAGS\x01%s\x02UNIQ_KEY\x01parcel-%u\x02", number % 2 ? "odd" : "even", number % 4);
    if (number % 4 == 2)
        properties_length += snprintf(
            properties + properties_length, sizeof properties - (size_t)properties_length, "KEYS\x01%s\x02", addressee);
    swistopal_fields fields;
    memset(&fields, 0, sizeof fields);
    fields.queue_offset = number;
    fields.born_time = store_time;
    fields.store_time = store_time;
    return swistopal_append(
        store_log, sizeof store_log, sizes, &fields, HOST, sizeof HOST, HOST, sizeof HOST,
        bytes(body), (size_t)body_length, bytes(TOPIC), strlen(TOPIC), bytes(properties), (size_t)properties_length,
        write_position);
}

static void print_positions(const uint64_t *positions, uint64_t found)
{
    for (uint64_t i = 0; i < found; i++)
        printf(" %llu", (unsigned long long)positions[i]);
}

int main(void)
{
    const swistopal_sizes sizes = sizes_of_store();
    uint64_t write_position = 0;
    unsigned rolls = 0;
    for (unsigned number = 0; number < EVENTS; number++) {
        uint64_t store_time = 10000 + 1500 * (uint64_t)number;
        uint32_t answer = append_event(&sizes, number, ADDRESSEE, store_time, &write_position);
        if (answer == SWISTOPAL_BLANK_WRITTEN) {
            rolls++;
            answer = append_event(&sizes, number, ADDRESSEE, store_time, &write_position);
        }
        if (!expect("append", answer, SWISTOPAL_DONE))
            return 1;
    }
    printf("appended %d events, %u roll, write position %llu\n", EVENTS, rolls, (unsigned long long)write_position);

    uint32_t answer = append_event(&sizes, 10, NO_TEXT, 30000, &write_position);
    if (!expect("append of what is no UTF-8", answer, SWISTOPAL_BAD_REQUEST))
        return 1;
    printf("an event with a key that is no UTF-8 is refused\n");

    swistopal_record record;
    answer = swistopal_read_record(store_log, sizeof store_log, &sizes, 0, write_position, &record);
    if (!expect("read_record", answer, SWISTOPAL_DONE) || record.kind != SWISTOPAL_RECORD)
        return 1;
    printf("record at 0: %llu bytes, stored at %llu, body \"%.*s\"\n", (unsigned long long)record.total,
           (unsigned long long)record.fields.store_time, (int)record.body.length, (const char *)store_log + record.body.at);

    /* The log alone tells the shift in figures, before anything is dispatched. */
    swistopal_figures figures;
    answer = swistopal_report(
        store_log, sizeof store_log, &sizes, 0, write_position, directory, sizeof directory, &figures);
    if (!expect("report", answer, SWISTOPAL_DONE) || figures.rows[0] != EVENTS || figures.blanks != rolls)
        return 1;
    printf("report: %llu records of %llu to %llu bytes, %llu blank, %llu index items\n", (unsigned long long)figures.records,
           (unsigned long long)figures.smallest, (unsigned long long)figures.largest, (unsigned long long)figures.blanks,
           (unsigned long long)figures.items);

    /* Five steps, then the rest: the call may be cut anywhere. The blank is a step too. */
    swistopal_progress progress;
    memset(&progress, 0, sizeof progress);
    uint64_t steps = 0;
    answer = swistopal_dispatch(
        store_log, sizeof store_log, write_position, &sizes, directory, sizeof directory, queues, sizeof queues,
        index_file, sizeof index_file, 5, &progress, &steps);
    if (!expect("dispatch", answer, SWISTOPAL_BUDGET_SPENT))
        return 1;
    printf("dispatched %llu steps, at %llu\n", (unsigned long long)steps, (unsigned long long)progress.position);
    answer = swistopal_dispatch(
        store_log, sizeof store_log, write_position, &sizes, directory, sizeof directory, queues, sizeof queues,
        index_file, sizeof index_file, UINT64_MAX, &progress, &steps);
    if (!expect("dispatch", answer, SWISTOPAL_DONE) || progress.position != write_position || progress.counts[0] != EVENTS)
        return 1;
    printf("dispatched %llu steps more, caught up\n", (unsigned long long)steps);

    uint64_t positions[PLACES];
    uint64_t in_queue = 0;
    answer = swistopal_read_queue(
        queues, sizeof queues, &sizes, directory, sizeof directory, &progress, 0, 6, PLACES, 0, 0, positions, PLACES,
        &in_queue);
    if (!expect("read_queue", answer, SWISTOPAL_DONE) || in_queue != EVENTS - 6)
        return 1;
    printf("queue from entry 6:");
    print_positions(positions, in_queue);
    printf("\n");

    const char tag[] = "odd";
    answer = swistopal_read_queue(
        queues, sizeof queues, &sizes, directory, sizeof directory, &progress, 0, 0, PLACES, 1,
        swistopal_tag_code(bytes(tag), strlen(tag)), positions, PLACES, &in_queue);
    if (!expect("read_queue by tag", answer, SWISTOPAL_DONE) || in_queue != EVENTS / 2)
        return 1;
    printf("with tag %s:", tag);
    print_positions(positions, in_queue);
    printf("\n");

    swistopal_found found;
    const char key[] = "parcel-1";
    answer = swistopal_query(
        index_file, sizeof index_file, &sizes, bytes(TOPIC), strlen(TOPIC), bytes(key), strlen(key), 0, 20000, PLACES,
        positions, PLACES, &found);
    if (!expect("query", answer, SWISTOPAL_DONE) || found.positions != 2)
        return 1;
    printf("%s, newest first:", key);
    print_positions(positions, found.positions);
    printf(" (%llu items read)\n", (unsigned long long)found.items_read);

    /* Another key may share the hash: the record itself tells. */
    answer = swistopal_read_record(store_log, sizeof store_log, &sizes, positions[0], write_position, &record);
    if (!expect("read_record", answer, SWISTOPAL_DONE))
        return 1;
    const uint8_t *own = store_log + (positions[0] - sizes.first_position);
    if (!swistopal_has_item(
            record.fields.system_flag, own + record.topic.at, (size_t)record.topic.length,
            own + record.properties.at, (size_t)record.properties.length,
            bytes(TOPIC), strlen(TOPIC), bytes(key), strlen(key)))
        return 1;
    printf("the record at %llu has that key\n", (unsigned long long)positions[0]);

    answer = swistopal_query(
        index_file, sizeof index_file, &sizes, bytes(TOPIC), strlen(TOPIC), bytes(ADDRESSEE), strlen(ADDRESSEE), 0, 20000,
        PLACES, positions, PLACES, &found);
    if (!expect("query by addressee", answer, SWISTOPAL_DONE) || found.positions != 2)
        return 1;
    printf("%s, newest first:", ADDRESSEE);
    print_positions(positions, found.positions);
    printf(" (%llu items read)\n", (unsigned long long)found.items_read);
    answer = swistopal_query(
        index_file, sizeof index_file, &sizes, bytes(TOPIC), strlen(TOPIC), bytes(NO_TEXT), strlen(NO_TEXT), 0, 20000,
        PLACES, positions, PLACES, &found);
    if (!expect("query for what is no UTF-8", answer, SWISTOPAL_MALFORMED))
        return 1;
    printf("a query for a key that is no UTF-8 is refused\n");

    answer = swistopal_query(
        index_file, sizeof index_file, &sizes, bytes(TOPIC), strlen(TOPIC), bytes(key), 0, 0, 20000, PLACES, positions,
        PLACES, &found);
    if (!expect("query without a key", answer, SWISTOPAL_MALFORMED))
        return 1;
    printf("a query without a key is refused\n");
    return 0;
}
