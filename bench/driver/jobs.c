/* Makes the jobs: every public call that is measured, small, large, and growing. */
#include "records.h"
#include <stdio.h>
#include <stdlib.h>
#include <string.h>

struct job jobs[MOST_JOBS];
int job_count;

static struct job *add(enum kind kind, const char *name) {
    if (job_count == MOST_JOBS)
        exit(3);
    struct job *job = &jobs[job_count++];
    snprintf(job->name, sizeof job->name, "%s", name);
    job->kind = kind;
    job->nl = 1;
    job->qm = 2;
    job->edition = 1;
    job->room = 66000;
    return job;
}

static const char *named(const char *what, size_t number) {
    static char name[48];
    snprintf(name, sizeof name, "%s %zu", what, number);
    return name;
}

static struct job *add_with_record(enum kind kind, const char *name, struct record record) {
    struct job *job = add(kind, name);
    job->record = record.octets;
    job->record_length = record.length;
    return job;
}

static void give_input(struct job *job, size_t length, u8 highest) {
    job->input_length = length;
    for (int v = 0; v < VARIANTS; v++) {
        job->inputs[v] = malloc(length + 1);
        for (size_t i = 0; i < length; i++)
            job->inputs[v][i] = drawn() & highest;
    }
    job->input = job->inputs[0];
}

static void run_done(const struct job *job) {
    if (run(&sides[PRODUCT], job)) {
        fprintf(stderr, "bench: %s is refused\n", job->name);
        exit(3);
    }
}

/* What the job before it writes for each of its inputs. */
static void give_output_of(struct job *job, struct job before, size_t length) {
    job->input_length = length;
    for (int v = 0; v < VARIANTS; v++) {
        before.input = before.inputs[v];
        run_done(&before);
        job->inputs[v] = malloc(length);
        memcpy(job->inputs[v], output, length);
    }
    job->input = job->inputs[0];
}

/* The checksum of packed octets, or of single bits. */
static void add_checksum(enum kind kind, size_t width, size_t count) {
    int single = kind == CRC_OF_BITS;
    char name[48];
    snprintf(name, sizeof name, "crc%zu %zu %s", width, count, single ? "bits" : "octets");
    struct job *job = add(kind, name);
    job->z = width;
    give_input(job, count, single ? 1 : 255);
}

/* Matching a coded block of so many places, of which 120 in a row are marked. */
static void add_matching(const char *name, size_t places, size_t e, size_t type, size_t rv) {
    struct job *job = add(MATCH, name);
    job->g = e;
    job->z = type;
    job->rv = rv;
    give_input(job, places, 1);
    for (int v = 0; v < VARIANTS; v++)
        memset(job->inputs[v] + 1500, 2, 120);
}

/* Coding a block, and checking what was coded. */
static void add_coding(const char *coding, const char *checking, struct record record, size_t z) {
    size_t kb = number_at(record.octets, 0), rows = number_at(record.octets, 2) + number_at(record.octets, 4);
    struct job *code = add_with_record(CODE, coding, record);
    code->z = z;
    give_input(code, kb * z, 1);
    struct job *check = add_with_record(CHECK, checking, record);
    check->z = z;
    give_output_of(check, *code, (kb + rows) * z);
}

static void add_record(size_t number) {
    struct record record = record_of(number);
    char coding[48], checking[48];
    add_with_record(JUDGE, named("judge", number), record);
    add_with_record(PLAN, named("plan", number), record)->z = 2048;
    for (size_t z = 27; z <= 81; z += 27) {
        snprintf(coding, sizeof coding, "code %zu z%zu", number, z);
        snprintf(checking, sizeof checking, "check %zu z%zu", number, z);
        add_coding(coding, checking, record, z);
    }
}

/* Sending a block, and receiving what was sent. */
static void add_sent(const char *what, struct record record, size_t octets, size_t g, size_t rv, size_t edition) {
    char name[48];
    snprintf(name, sizeof name, "send %s", what);
    struct job *send = add_with_record(SEND, name, record);
    send->g = g;
    send->rv = rv;
    send->edition = edition;
    give_input(send, octets, 255);
    snprintf(name, sizeof name, "receive %s", what);
    struct job *receive = add_with_record(RECEIVE, name, record);
    receive->a = 8 * octets;
    receive->rv = rv;
    receive->edition = edition;
    give_output_of(receive, *send, g);
}

static void add_transfer(const char *what, struct record record, size_t octets, size_t g) {
    add_sent(what, record, octets, g, 0, 1);
}

/* From where a version starts, into just the room that it needs. */
static void add_version(const char *what, struct record record, size_t octets, size_t rv) {
    add_sent(what, record, octets, least_g(record, 1, octets), rv, 1);
}

/* Into just the room that it needs, three times that, and the most there is. */
static void add_transfers(size_t number, size_t octets) {
    struct record record = record_of(number);
    size_t least = least_g(record, 1, octets);
    char what[48];
    snprintf(what, sizeof what, "%zu %zu exact", number, octets);
    add_transfer(what, record, octets, least);
    snprintf(what, sizeof what, "%zu %zu three", number, octets);
    if (3 * least <= 65536)
        add_transfer(what, record, octets, 3 * least);
    snprintf(what, sizeof what, "%zu %zu 65536", number, octets);
    add_transfer(what, record, octets, 65536);
}

static void add_widest(void) {
    struct record record = widest();
    add_with_record(JUDGE, "judge wide", record);
    add_coding("code wide z81", "check wide z81", record, 81);
    add_transfer("wide 2048 exact", record, 2048, least_g(record, 1, 2048));
}

static struct job *add_hosted(enum kind kind, const char *name, size_t entries, uint16_t tenant, uint16_t profile) {
    struct job *job = add(kind, name);
    job->private = filled(1, entries, record_of(34), &job->private_length);
    job->public = filled(0, entries, record_of(34), &job->public_length);
    job->tenant = tenant;
    job->profile = profile;
    return job;
}

/* A hosted transfer with the last record of a full public shelf. */
static void add_hosted_transfer(size_t octets) {
    char name[48];
    snprintf(name, sizeof name, "hosted send 34 %zu exact", octets);
    struct job *send = add_hosted(HOSTED_SEND, name, 64, 9, 64);
    send->g = least_g(record_of(34), 1, octets);
    give_input(send, octets, 255);
    snprintf(name, sizeof name, "hosted receive 34 %zu exact", octets);
    struct job *receive = add_hosted(HOSTED_RECEIVE, name, 64, 9, 64);
    receive->a = 8 * octets;
    give_output_of(receive, *send, send->g);
}

/* How the cost grows with the octets, with G and with the entries. */
static void add_growing(void) {
    struct record record = record_of(56);
    for (size_t octets = 128; octets <= 2048; octets *= 2)
        add_transfer(named("grow octets", octets), record, octets, least_g(record, 1, octets));
    for (size_t g = 4096; g <= 65536; g *= 2)
        add_transfer(named("grow G", g), record, 56, g);
    for (size_t entries = 4; entries <= 64; entries *= 2)
        add_hosted(LOOKUP, named("lookup grow entries", entries), entries, 9, entries);
}

/* The other checksums of octets that bench/checksum has rows for. */
static void add_shorter_checksums(void) {
    for (size_t width = 24; width >= 8; width -= 8)
        for (size_t octets = 1; octets <= 256; octets *= 16)
            add_checksum(CRC, width, octets);
    add_checksum(CRC, 8, 2048);
}

/* Type 2: the largest words there are, sent from their beginning and from their middle; and blocks that are sent from inside their filler. */
static void add_type_2(void) {
    struct record record = trial(), short_one = as_type_2(record_of(56));
    add_matching("match 4860 4740 rv2", 4860, 4740, 2, 2);
    add_with_record(JUDGE, "judge trial", record);
    add_coding("code trial z81", "check trial z81", record, 81);
    add_version("trial 2048 exact rv0", record, 2048, 0);
    add_version("trial 2048 exact rv2", record, 2048, 2);
    add_version("type2 56 exact rv3", short_one, 56, 3);
}

/* The checksum of a code block's own bits, as many as the blocks of 2,048 octets with profile 56 have. */
static void add_block_checksum(void) {
    struct job *job = add(CRC_OF_BLOCK, "crc24b 1492 bits");
    give_input(job, 1492, 1);
}

/* Edition 2, where the blocks have a checksum each: eleven blocks, as many as in edition 1; and the shortest of two blocks, in both editions. */
static void add_edition_2(void) {
    struct record record = record_of(56);
    add_block_checksum();
    add_sent("56 2048 exact ed2", record, 2048, least_g(record, 2, 2048), 0, 2);
    add_transfer("56 200 exact", record, 200, least_g(record, 1, 200));
    add_sent("56 200 exact ed2", record, 200, least_g(record, 2, 200), 0, 2);
}

static struct job *add_control(enum kind kind, const char *what, size_t d, size_t e) {
    char name[48];
    snprintf(name, sizeof name, "control %s %zu %zu", what, d, e);
    struct job *job = add(kind, name);
    job->z = d;
    job->g = e;
    return job;
}

/* A word of D bits is sent as E. */
static struct job *add_sent_word(size_t d, size_t e) {
    struct job *job = add_control(SEND_WORD, "send", d, e);
    give_input(job, d, 1);
    return job;
}

/* The streams are taken back from what was sent. */
static void add_back(const struct job *send) {
    give_output_of(add_control(STREAMS_OF, "back", send->z, send->g), *send, send->g);
}

/* Control words: the shortest, one of a usual length and the longest, into just the room that they need and over and over. */
static void add_control_words(void) {
    give_input(add(CODE_WORD, "control code 40"), 40, 1);
    give_input(add(CODE_WORD, "control code 128"), 128, 1);
    give_input(add_control(MATCH_STREAMS, "match", 40, 120), 120, 1);
    add_sent_word(6, 18);
    add_back(add_sent_word(40, 120));
    add_sent_word(40, 1600);
    add_back(add_sent_word(128, 384));
    add_back(add_sent_word(128, 5120));
}

/* A word of D bits is looked for. How many starts are tried depends on what was heard. */
static struct job *add_heard(size_t d, const char *what) {
    char name[48];
    snprintf(name, sizeof name, "nearest %zu %s", d, what);
    struct job *job = add(NEAREST_WORD, name);
    job->z = d;
    job->is_uneven = 1;
    return job;
}

/* It is looked for in the streams of words. */
static struct job *add_coded(size_t d, const char *what) {
    struct job word = { .name = "code", .kind = CODE_WORD, .room = 3 * d }, *job = add_heard(d, what);
    give_input(&word, d, 1);
    give_output_of(job, word, 3 * d);
    for (int v = 0; v < VARIANTS; v++)
        free(word.inputs[v]);
    return job;
}

/* Turns so many bits round, each at a place of its own. */
static void turn(u8 *bits, size_t length, size_t count) {
    u8 is_turned[384] = { 0 };
    while (count) {
        size_t place = drawn() % length;
        if (is_turned[place])
            continue;
        is_turned[place] = 1;
        bits[place] ^= 1;
        count--;
    }
}

/* Clean, with every twentieth bit wrong, and of no word at all. */
static void add_nearest(size_t d) {
    add_coded(d, "clean");
    struct job *noisy = add_coded(d, "noisy");
    for (int v = 0; v < VARIANTS; v++)
        turn(noisy->inputs[v], 3 * d, (3 * d + 10) / 20);
    give_input(add_heard(d, "random"), 3 * d, 1);
}

/* The nearest word, short to long, and the refusal that is found last. */
static void add_nearest_words(void) {
    add_nearest(6);
    add_nearest(22);
    add_nearest(40);
    add_nearest(128);
    struct job *refused = add_coded(128, "refused");
    for (int v = 0; v < VARIANTS; v++)
        refused->inputs[v][383] = 2;
}

static void ask_both(const char *name) {
    for (int k = 0; k < job_count; k++)
        if (!strcmp(jobs[k].name, name)) {
            jobs[k].is_for_both = 1;
            return;
        }
    exit(3);
}

/* With a record in use, with the widest of Type 1, and with the trial one, which has the largest word there is. */
static void ask_both_checkers(void) {
    ask_both("check 56 z81");
    ask_both("check wide z81");
    ask_both("check trial z81");
    ask_both("receive 56 2048 exact");
    ask_both("receive wide 2048 exact");
}

void make_jobs(const char *shelves) {
    read_shelves(shelves);
    add_checksum(CRC, 24, 2048);
    add_checksum(CRC, 16, 2048);
    add_checksum(CRC, 24, 56);
    add_checksum(CRC_OF_BITS, 24, 16384);
    add_matching("match 1944 1824", 1944, 1824, 1, 0);
    add_matching("match 1944 65536", 1944, 65536, 1, 0);
    add_record(56);
    add_record(34);
    add_transfers(56, 2048);
    add_transfers(34, 2048);
    add_transfers(56, 56);
    /* As many code blocks as may be, of two bits each; then blocks as wide as may be. */
    add_transfer("toy 13 exact", toy(), 13, least_g(toy(), 1, 13));
    add_widest();
    add_hosted(LOOKUP, "lookup 64+64 last public", 64, 9, 64);
    add_hosted(LOOKUP, "lookup 64+64 last private", 64, 64, 7);
    add_hosted_transfer(56);
    add_hosted_transfer(2048);
    add_growing();
    /* At the end, so that the jobs before have the inputs that they had. */
    add_shorter_checksums();
    add_type_2();
    add_edition_2();
    add_control_words();
    add_nearest_words();
    ask_both_checkers();
}
