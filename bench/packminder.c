/*
 * packminder in plain C: the same input and the same lines as the proved program, written from docs/ alone. It is what the proved program
 * is measured against, so it is kept as firmware would be: state of fixed size, no allocation, and nothing worked out at a reading that
 * the sheet alone decides.
 *
 *     packminder          prints the verdict of the sheet, and a line for each record (docs/programs.md)
 *     packminder tally    decides the same, but prints only the verdict, the count of records, and a sum over all answers
 */

#define _POSIX_C_SOURCE 200809L

#include <errno.h>
#include <stdbool.h>
#include <stddef.h>
#include <stdint.h>
#include <stdio.h>
#include <string.h>
#include <unistd.h>

enum {
    IMAGE_BYTES = 116,
    RECORD_BYTES = 12,
    BLOCK_RECORDS = 341,
    BLOCK_BYTES = BLOCK_RECORDS * RECORD_BYTES,

    MOST_MV = 5000,
    MOST_MA = 20000,
    MOST_READING_MV = 6000,
    MOST_ELAPSED_MS = 60000,

    EDGES = 8,
    ROWS = 7,
    STEPS = 4,
    FAULTS = 13,

    ROOM_ROW = 3
};

/* Where the fields of an image begin. */
enum {
    AT_ENTRIES = 2,
    AT_TRIP = 22,
    AT_RELEASE = 24,
    AT_SHUTDOWN = 26,
    AT_OVERDROP = 28,
    AT_PERMANENT_OVER = 30,
    AT_CHARGING = 32,
    AT_DISCHARGING = 34,
    AT_FULL = 36,
    AT_FULL_DROP = 38,
    AT_FULL_CURRENT = 40,
    AT_CHARGE_WORD = 42,
    AT_EDGES = 44,
    AT_HOT = 52,
    AT_DIE_HOT = 53,
    AT_PERMANENT_HOT = 54,
    AT_HYSTERESIS = 55,
    AT_ROWS = 56,
    ROW_BYTES = 6,
    AT_STEPS = 98,
    AT_RATIOS = 106,
    AT_DELAY_WORD = 110,
    AT_SWITCH_WORD = 112,
    AT_SUM = 114
};

/* The faults, by their bits in the answer. */
enum {
    UVP,
    SHUTDOWN,
    OVP,
    OCCP,
    ODCP,
    TOO_COLD_C,
    TOO_HOT_C,
    TOO_HOT_D,
    DIE_HOT,
    FULL,
    CHG_WDT,
    PERM_HOT,
    PERM_OVER
};

#define BIT(k) (1u << (k))

#define BLOCK_BOTH (BIT(SHUTDOWN) | BIT(DIE_HOT) | BIT(PERM_HOT) | BIT(PERM_OVER))
#define BLOCK_CHARGE (BLOCK_BOTH | BIT(OVP) | BIT(OCCP) | BIT(TOO_COLD_C) | BIT(TOO_HOT_C) | BIT(FULL) | BIT(CHG_WDT))
#define BLOCK_DISCHARGE (BLOCK_BOTH | BIT(UVP) | BIT(ODCP) | BIT(TOO_HOT_D))

enum { CHARGE = 1, DISCHARGE = 2 };

/* The refusals. */
enum {
    ACCEPTED = 0,
    WRONG_LENGTH = 1,
    WRONG_HEAD = 2,
    WRONG_ENTRY = 3,
    WRONG_SUM = 4,
    OUT_OF_RANGE = 5,
    AT_ODDS = 6,
    UNKNOWN_LETTER = 7,
    SPARE_SET = 8,
    RECORD_OUT_OF_RANGE = 9,
    NOT_HELD_OFF = 10,
    CUT_SHORT = 11
};

struct verdict {
    unsigned number;
    unsigned place;
};

struct row {
    uint16_t current;
    uint16_t voltage;
    uint16_t level;
};

/* An accepted sheet, in the form in which the readings need it: degrees are times 256, and drops and hystereses are already applied. */
struct sheet {
    int32_t trip;
    int32_t release;
    int32_t shutdown;
    int32_t overdrop;
    int32_t permanent_over;
    int32_t charging;
    int32_t discharging; /* negative: the current below which it trips */
    int32_t full;
    int32_t full_release;
    int32_t full_current;
    int32_t edges[EDGES];
    int32_t cold_release;
    int32_t too_hot_release;
    int32_t hot;
    int32_t hot_release;
    int32_t die_hot;
    int32_t die_hot_release;
    int32_t permanent_hot;
    struct row rows[ROWS];
    int32_t steps[STEPS];
    uint8_t ratios[STEPS];
    int32_t precharge_below;
    uint16_t precharge_current;
    uint32_t delays[FAULTS];
    uint32_t transition;
    unsigned enabled;
};

struct reading {
    uint32_t elapsed;
    int32_t voltage;
    int32_t current;
    int32_t cell;
    int32_t die;
    bool charger;
};

/* What the accepted records leave. The region, the level and the prescription are those of the last accepted reading. */
struct pack {
    uint32_t held[FAULTS];
    unsigned standing;
    uint32_t ages[ROWS];
    struct reading last;
    bool read;
    bool host_word;
    uint16_t host_limit;
    unsigned held_off;
    int region;
    uint16_t level;
    uint16_t prescribed_current;
    uint16_t prescribed_voltage;
};

struct answer {
    uint8_t refusal;
    uint8_t switches;
    uint16_t faults;
    uint16_t current;
    uint16_t voltage;
    int8_t region;
    uint16_t level;
};

/* ---- numbers in bytes ---- */

static uint16_t word_at(const uint8_t *bytes)
{
    return (uint16_t)(bytes[0] | bytes[1] << 8);
}

static int32_t signed_word_at(const uint8_t *bytes)
{
    int32_t word = word_at(bytes);
    return word < 0x8000 ? word : word - 0x10000;
}

static int32_t signed_byte(uint8_t byte)
{
    return byte < 0x80 ? byte : byte - 0x100;
}

static uint32_t saturating_add(uint32_t a, uint32_t b)
{
    return a > UINT32_MAX - b ? UINT32_MAX : a + b;
}

/* ---- the sheet: judging an image ---- */

static struct verdict verdict_of(unsigned number, unsigned place)
{
    struct verdict verdict = {number, place};
    return verdict;
}

static unsigned first_wrong_entry(const uint8_t *image)
{
    static const uint8_t entries[5][4] = {
        {1, 22, 22, 0}, {2, 12, 44, 0}, {3, 42, 56, 0}, {4, 12, 98, 0}, {5, 4, 110, 0},
    };

    for (unsigned k = 0; k < 5; k++) {
        if (memcmp(image + AT_ENTRIES + 4 * k, entries[k], 4) != 0) {
            return k + 1;
        }
    }
    return 0;
}

static unsigned sum_of(const uint8_t *image)
{
    unsigned sum = 0;

    for (unsigned at = 0; at < AT_SUM; at++) {
        sum += image[at];
    }
    return sum;
}

/* The place of the first field that is out of its range, or 0. The fields are taken in the order of their places. */
static unsigned first_out_of_range(const uint8_t *image)
{
    static const struct {
        uint8_t place;
        uint16_t most;
    } levels[] = {
        {AT_TRIP, MOST_MV},           {AT_RELEASE, MOST_MV},  {AT_SHUTDOWN, MOST_MV},    {AT_OVERDROP, MOST_MV},
        {AT_PERMANENT_OVER, MOST_MV}, {AT_CHARGING, MOST_MA}, {AT_DISCHARGING, MOST_MA}, {AT_FULL, MOST_MV},
        {AT_FULL_DROP, MOST_MV},      {AT_FULL_CURRENT, MOST_MA},
    };

    for (unsigned k = 0; k < sizeof levels / sizeof levels[0]; k++) {
        if (word_at(image + levels[k].place) > levels[k].most) {
            return levels[k].place;
        }
    }
    if ((word_at(image + AT_CHARGE_WORD) & 0x2000) != 0) {
        return AT_CHARGE_WORD;
    }
    if (image[AT_HYSTERESIS] > 20) {
        return AT_HYSTERESIS;
    }
    for (unsigned at = AT_ROWS; at < AT_STEPS; at += ROW_BYTES) {
        if (word_at(image + at) > MOST_MA) {
            return at;
        }
        if (word_at(image + at + 2) > MOST_MV) {
            return at + 2;
        }
        if (word_at(image + at + 4) > MOST_MV) {
            return at + 4;
        }
    }
    for (unsigned at = AT_STEPS; at < AT_RATIOS; at += 2) {
        if (word_at(image + at) > MOST_MV) {
            return at;
        }
    }
    for (unsigned at = AT_RATIOS; at < AT_DELAY_WORD; at++) {
        if (image[at] > 16) {
            return at;
        }
    }
    if ((word_at(image + AT_SWITCH_WORD) & 0xE000) != 0) {
        return AT_SWITCH_WORD;
    }
    return 0;
}

/* The place of the first field that is at odds with another, or 0. */
static unsigned first_at_odds(const uint8_t *image)
{
    uint16_t overdrop = word_at(image + AT_OVERDROP);

    if (word_at(image + AT_RELEASE) < word_at(image + AT_TRIP)) {
        return AT_RELEASE;
    }
    for (unsigned at = AT_EDGES + 1; at < AT_EDGES + EDGES; at++) {
        if (signed_byte(image[at]) < signed_byte(image[at - 1])) {
            return at;
        }
    }
    for (unsigned at = AT_ROWS; at < AT_STEPS; at += ROW_BYTES) {
        uint16_t voltage = word_at(image + at + 2);
        uint16_t level = word_at(image + at + 4);

        if (voltage > level) {
            return at + 2;
        }
        if (level < overdrop) {
            return at + 4;
        }
    }
    for (unsigned at = AT_STEPS + 2; at < AT_RATIOS; at += 2) {
        if (word_at(image + at) < word_at(image + at - 2)) {
            return at;
        }
    }
    for (unsigned at = AT_RATIOS + 1; at < AT_DELAY_WORD; at++) {
        if (image[at] > image[at - 1]) {
            return at;
        }
    }
    return 0;
}

static struct verdict judge(const uint8_t *image, size_t length)
{
    unsigned place;

    if (length != IMAGE_BYTES) {
        return verdict_of(WRONG_LENGTH, 0);
    }
    if (image[0] != 1 || image[1] != 5) {
        return verdict_of(WRONG_HEAD, 0);
    }
    place = first_wrong_entry(image);
    if (place != 0) {
        return verdict_of(WRONG_ENTRY, place);
    }
    if (word_at(image + AT_SUM) != sum_of(image)) {
        return verdict_of(WRONG_SUM, 0);
    }
    place = first_out_of_range(image);
    if (place != 0) {
        return verdict_of(OUT_OF_RANGE, place);
    }
    place = first_at_odds(image);
    if (place != 0) {
        return verdict_of(AT_ODDS, place);
    }
    return verdict_of(ACCEPTED, 0);
}

/* ---- the sheet: loading an accepted image ---- */

static void load_delays(struct sheet *sheet, unsigned word)
{
    static const uint32_t brief[8] = {351, 700, 1400, 2800, 5600, 11250, 22500, 45000};
    static const uint32_t shutdown[4] = {45000, 90000, 180000, 360000};
    static const uint32_t transition[4] = {4550, 8750, 17150, 34851};
    static const uint32_t full[8] = {33000, 67000, 135000, 270000, 540000, 1080000, 2160000, 5760000};
    static const uint32_t watchdog[4] = {22500, 45000, 90000, 180000};

    unsigned under = word & 3;
    unsigned temperature = word >> 2 & 3;
    unsigned permanent = word >> 4 & 3;
    unsigned overcurrent = word >> 6 & 7;
    unsigned overvoltage = word >> 9 & 3;

    sheet->delays[UVP] = brief[under];
    sheet->delays[SHUTDOWN] = shutdown[under];
    sheet->delays[OVP] = brief[overvoltage];
    sheet->delays[OCCP] = brief[overcurrent];
    sheet->delays[ODCP] = brief[overcurrent];
    sheet->delays[TOO_COLD_C] = brief[temperature];
    sheet->delays[TOO_HOT_C] = brief[temperature];
    sheet->delays[TOO_HOT_D] = brief[temperature];
    sheet->delays[DIE_HOT] = brief[temperature];
    sheet->delays[FULL] = full[word >> 11 & 7];
    sheet->delays[CHG_WDT] = watchdog[word >> 14 & 3];
    sheet->delays[PERM_HOT] = brief[permanent];
    sheet->delays[PERM_OVER] = brief[permanent];
    sheet->transition = transition[temperature];
}

static int32_t degrees_at(const uint8_t *image, unsigned at)
{
    return signed_byte(image[at]) * 256;
}

static void load(struct sheet *sheet, const uint8_t *image)
{
    int32_t hysteresis = image[AT_HYSTERESIS] * 256;
    unsigned charge_word = word_at(image + AT_CHARGE_WORD);

    sheet->trip = word_at(image + AT_TRIP);
    sheet->release = word_at(image + AT_RELEASE);
    sheet->shutdown = word_at(image + AT_SHUTDOWN);
    sheet->overdrop = word_at(image + AT_OVERDROP);
    sheet->permanent_over = word_at(image + AT_PERMANENT_OVER);
    sheet->charging = word_at(image + AT_CHARGING);
    sheet->discharging = -(int32_t)word_at(image + AT_DISCHARGING);
    sheet->full = word_at(image + AT_FULL);
    sheet->full_release = sheet->full - (int32_t)word_at(image + AT_FULL_DROP);
    sheet->full_current = word_at(image + AT_FULL_CURRENT);

    for (unsigned k = 0; k < EDGES; k++) {
        sheet->edges[k] = degrees_at(image, AT_EDGES + k);
    }
    sheet->cold_release = sheet->edges[0] + hysteresis;
    sheet->too_hot_release = sheet->edges[EDGES - 1] - hysteresis;
    sheet->hot = degrees_at(image, AT_HOT);
    sheet->hot_release = sheet->hot - hysteresis;
    sheet->die_hot = degrees_at(image, AT_DIE_HOT);
    sheet->die_hot_release = sheet->die_hot - hysteresis;
    sheet->permanent_hot = degrees_at(image, AT_PERMANENT_HOT);

    for (unsigned k = 0; k < ROWS; k++) {
        const uint8_t *row = image + AT_ROWS + ROW_BYTES * k;

        sheet->rows[k].current = word_at(row);
        sheet->rows[k].voltage = word_at(row + 2);
        sheet->rows[k].level = word_at(row + 4);
    }
    for (unsigned k = 0; k < STEPS; k++) {
        sheet->steps[k] = word_at(image + AT_STEPS + 2 * k);
        sheet->ratios[k] = image[AT_RATIOS + k];
    }
    sheet->precharge_below = sheet->trip + 50 * (int32_t)(charge_word >> 9 & 15);
    sheet->precharge_current = (uint16_t)(sheet->rows[ROOM_ROW].current * (1 + (charge_word & 63)) / 256);

    load_delays(sheet, word_at(image + AT_DELAY_WORD));
    sheet->enabled = word_at(image + AT_SWITCH_WORD);
}

/* ---- a reading ---- */

static int region_of(const struct sheet *sheet, int32_t cell)
{
    int region = -4;

    for (unsigned k = 0; k < EDGES; k++) {
        if (sheet->edges[k] <= cell) {
            region++;
        }
    }
    return region;
}

/* Cold2 serves TooCold as well, and Hot2 serves TooHot. */
static unsigned row_of(int region)
{
    if (region < -3) {
        return 0;
    }
    if (region > 3) {
        return ROWS - 1;
    }
    return (unsigned)(region + 3);
}

static void pass_time(struct pack *pack, unsigned row, uint32_t elapsed)
{
    for (unsigned k = 0; k < ROWS; k++) {
        pack->ages[k] = saturating_add(pack->ages[k], elapsed);
    }
    pack->ages[row] = 0;
}

static uint16_t level_in_force(const struct sheet *sheet, const struct pack *pack, unsigned row)
{
    uint16_t level = sheet->rows[row].level;

    for (unsigned k = 0; k < ROWS; k++) {
        if (pack->ages[k] < sheet->transition && sheet->rows[k].level > level) {
            level = sheet->rows[k].level;
        }
    }
    return level;
}

static unsigned bit_if(bool condition, unsigned fault)
{
    return condition ? BIT(fault) : 0;
}

static unsigned trips(const struct sheet *sheet, const struct reading *now, int32_t level, bool host_word)
{
    unsigned bits = 0;

    bits |= bit_if(now->voltage < sheet->trip, UVP);
    bits |= bit_if(now->voltage < sheet->shutdown && !now->charger, SHUTDOWN);
    bits |= bit_if(now->voltage > level, OVP);
    bits |= bit_if(now->current > sheet->charging, OCCP);
    bits |= bit_if(now->current < sheet->discharging, ODCP);
    bits |= bit_if(now->cell < sheet->edges[0], TOO_COLD_C);
    bits |= bit_if(now->cell >= sheet->edges[EDGES - 1], TOO_HOT_C);
    bits |= bit_if(now->cell >= sheet->hot, TOO_HOT_D);
    bits |= bit_if(now->die >= sheet->die_hot, DIE_HOT);
    bits |= bit_if(now->voltage >= sheet->full && now->current >= 0 && now->current <= sheet->full_current, FULL);
    bits |= bit_if(!host_word, CHG_WDT);
    bits |= bit_if(now->cell >= sheet->permanent_hot, PERM_HOT);
    bits |= bit_if(now->voltage > sheet->permanent_over, PERM_OVER);
    return bits & sheet->enabled;
}

/* The permanent faults are in no line here: no reading releases them. */
static unsigned releases(const struct sheet *sheet, const struct reading *now, int32_t level, bool host_word)
{
    unsigned bits = 0;

    bits |= bit_if(now->voltage >= sheet->release, UVP);
    bits |= bit_if(now->charger, SHUTDOWN);
    bits |= bit_if(now->voltage <= level - sheet->overdrop, OVP);
    bits |= bit_if(!now->charger && now->current <= 0, OCCP);
    bits |= bit_if(now->charger && now->current >= 0, ODCP);
    bits |= bit_if(now->cell >= sheet->cold_release, TOO_COLD_C);
    bits |= bit_if(now->cell < sheet->too_hot_release, TOO_HOT_C);
    bits |= bit_if(now->cell < sheet->hot_release, TOO_HOT_D);
    bits |= bit_if(now->die < sheet->die_hot_release, DIE_HOT);
    bits |= bit_if(now->voltage < sheet->full_release, FULL);
    bits |= bit_if(host_word, CHG_WDT);
    return bits;
}

static void time_faults(const struct sheet *sheet, struct pack *pack, unsigned tripped, unsigned released, uint32_t elapsed)
{
    for (unsigned k = 0; k < FAULTS; k++) {
        bool trips_now = (tripped & BIT(k)) != 0;

        pack->held[k] = trips_now ? saturating_add(pack->held[k], elapsed) : 0;
        if (trips_now && pack->held[k] >= sheet->delays[k]) {
            pack->standing |= BIT(k);
        } else if ((released & BIT(k)) != 0) {
            pack->standing &= ~BIT(k);
        }
    }
}

/* The usual stack of prescribers: the zone, then the steps, then the precharge. */
static void prescribe(const struct sheet *sheet, struct pack *pack, unsigned row)
{
    int32_t voltage = pack->last.voltage;
    unsigned current = 0;
    unsigned reached = 0;

    if (pack->region == -4 || pack->region == 4) {
        pack->prescribed_current = 0;
        pack->prescribed_voltage = 0;
        return;
    }
    current = sheet->rows[row].current;
    while (reached < STEPS && sheet->steps[reached] <= voltage) {
        reached++;
    }
    if (reached > 0) {
        current = current * sheet->ratios[reached - 1] / 16;
    }
    if (voltage < sheet->precharge_below && current > sheet->precharge_current) {
        current = sheet->precharge_current;
    }
    pack->prescribed_current = (uint16_t)current;
    pack->prescribed_voltage = sheet->rows[row].voltage;
}

static void take_reading(const struct sheet *sheet, struct pack *pack, const struct reading *now)
{
    unsigned row;
    unsigned tripped;
    unsigned released;

    pack->last = *now;
    pack->read = true;
    pack->region = region_of(sheet, now->cell);
    row = row_of(pack->region);
    pass_time(pack, row, now->elapsed);
    pack->level = level_in_force(sheet, pack, row);
    tripped = trips(sheet, now, pack->level, pack->host_word);
    released = releases(sheet, now, pack->level, pack->host_word);
    time_faults(sheet, pack, tripped, released, now->elapsed);
    pack->host_word = false;
    prescribe(sheet, pack, row);
}

/* ---- records ---- */

static bool any_set(const uint8_t *record, unsigned from)
{
    for (unsigned at = from; at < RECORD_BYTES; at++) {
        if (record[at] != 0) {
            return true;
        }
    }
    return false;
}

static unsigned call_reading(const struct sheet *sheet, struct pack *pack, const uint8_t *record)
{
    struct reading now;

    if ((record[1] & 0xFE) != 0) {
        return SPARE_SET;
    }
    now.charger = (record[1] & 1) != 0;
    now.elapsed = word_at(record + 2);
    now.voltage = word_at(record + 4);
    now.current = signed_word_at(record + 6);
    now.cell = signed_word_at(record + 8);
    now.die = signed_word_at(record + 10);
    if (now.elapsed < 1 || now.elapsed > MOST_ELAPSED_MS || now.voltage > MOST_READING_MV) {
        return RECORD_OUT_OF_RANGE;
    }
    take_reading(sheet, pack, &now);
    return ACCEPTED;
}

static unsigned call_word(struct pack *pack, const uint8_t *record)
{
    if (any_set(record, 1)) {
        return SPARE_SET;
    }
    pack->host_word = true;
    return ACCEPTED;
}

static unsigned call_limit(struct pack *pack, const uint8_t *record)
{
    uint16_t limit = word_at(record + 2);

    if (record[1] != 0 || any_set(record, 4)) {
        return SPARE_SET;
    }
    if (limit > MOST_MA) {
        return RECORD_OUT_OF_RANGE;
    }
    pack->host_limit = limit;
    return ACCEPTED;
}

static unsigned call_switch_offs(struct pack *pack, const uint8_t *record)
{
    if ((record[1] & 0xFC) != 0 || any_set(record, 2)) {
        return SPARE_SET;
    }
    pack->held_off = record[1];
    return ACCEPTED;
}

static unsigned call_clear(struct pack *pack, const uint8_t *record)
{
    if (any_set(record, 1)) {
        return SPARE_SET;
    }
    if (pack->held_off != (CHARGE | DISCHARGE)) {
        return NOT_HELD_OFF;
    }
    memset(pack->held, 0, sizeof pack->held);
    pack->standing = 0;
    return ACCEPTED;
}

static unsigned call(const struct sheet *sheet, struct pack *pack, const uint8_t *record, size_t length)
{
    if (length != RECORD_BYTES) {
        return CUT_SHORT;
    }
    switch (record[0]) {
    case 'R':
        return call_reading(sheet, pack, record);
    case 'W':
        return call_word(pack, record);
    case 'L':
        return call_limit(pack, record);
    case 'S':
        return call_switch_offs(pack, record);
    case 'C':
        return call_clear(pack, record);
    default:
        return UNKNOWN_LETTER;
    }
}

/* ---- the pack ---- */

static void start(struct pack *pack)
{
    memset(pack, 0, sizeof *pack);
    /* A row that was never seen is older than any delay. */
    for (unsigned k = 0; k < ROWS; k++) {
        pack->ages[k] = UINT32_MAX;
    }
    pack->host_limit = MOST_MA;
}

static unsigned switches_on(const struct pack *pack)
{
    unsigned on = 0;

    if ((pack->standing & BLOCK_CHARGE) == 0) {
        on |= CHARGE;
    }
    if ((pack->standing & BLOCK_DISCHARGE) == 0) {
        on |= DISCHARGE;
    }
    return on & ~pack->held_off;
}

static void answer_record(const struct sheet *sheet, struct pack *pack, const uint8_t *record, size_t length, struct answer *answer)
{
    memset(answer, 0, sizeof *answer);
    answer->refusal = (uint8_t)call(sheet, pack, record, length);
    if (!pack->read) {
        return;
    }
    answer->switches = (uint8_t)switches_on(pack);
    answer->faults = (uint16_t)pack->standing;
    if ((answer->switches & CHARGE) != 0) {
        answer->current = pack->prescribed_current < pack->host_limit ? pack->prescribed_current : pack->host_limit;
        answer->voltage = pack->prescribed_voltage;
    }
    answer->region = (int8_t)pack->region;
    answer->level = pack->level;
}

/* ---- the program ---- */

/* Fills the bytes as far as the input goes, however small the pieces that it comes in. Returns how many there are, or -1. */
static ssize_t read_all(uint8_t *bytes, size_t room)
{
    size_t have = 0;

    while (have < room) {
        ssize_t got = read(STDIN_FILENO, bytes + have, room - have);

        if (got < 0 && errno == EINTR) {
            continue;
        }
        if (got < 0) {
            return -1;
        }
        if (got == 0) {
            break;
        }
        have += (size_t)got;
    }
    return (ssize_t)have;
}

static bool print_verdict(struct verdict verdict)
{
    return printf("sheet %u %u\n", verdict.number, verdict.place) >= 0;
}

static bool print_answer(const struct answer *answer)
{
    return printf("%d %d %d %d %d %d %d\n", answer->refusal, answer->switches, answer->faults, answer->current, answer->voltage,
                  answer->region, answer->level) >= 0;
}

static uint64_t total_of(const struct answer *answer)
{
    return (uint64_t)(answer->refusal + answer->switches + answer->faults + answer->current + answer->voltage + answer->level +
                      (answer->region + 4));
}

static struct sheet the_sheet;
static struct pack the_pack;
static uint8_t block[BLOCK_BYTES];
/* Given to stdout, so that the C library allocates none. */
static char out[BUFSIZ];

/* Answers every record, with a line or in the tally. Returns false where the input or the output fails. */
static bool mind(bool tally, uint64_t *records, uint64_t *sum)
{
    struct answer answer;
    ssize_t have;

    do {
        have = read_all(block, sizeof block);
        if (have < 0) {
            return false;
        }
        for (size_t at = 0; at < (size_t)have; at += RECORD_BYTES) {
            size_t left = (size_t)have - at;

            answer_record(&the_sheet, &the_pack, block + at, left < RECORD_BYTES ? left : RECORD_BYTES, &answer);
            if (tally) {
                *records += 1;
                *sum += total_of(&answer);
            } else if (!print_answer(&answer)) {
                return false;
            }
        }
    } while ((size_t)have == sizeof block);
    return true;
}

static bool run(bool tally)
{
    uint8_t image[IMAGE_BYTES];
    ssize_t length = read_all(image, sizeof image);
    struct verdict verdict;
    uint64_t records = 0;
    uint64_t sum = 0;

    if (length < 0) {
        return false;
    }
    verdict = judge(image, (size_t)length);
    if (verdict.number != ACCEPTED) {
        return print_verdict(verdict);
    }
    load(&the_sheet, image);
    start(&the_pack);
    if (!tally) {
        return print_verdict(verdict) && mind(false, &records, &sum);
    }
    return mind(true, &records, &sum) && print_verdict(verdict) &&
           printf("%llu %llu\n", (unsigned long long)records, (unsigned long long)sum) >= 0;
}

int main(int argc, char **argv)
{
    bool tally = argc == 2 && strcmp(argv[1], "tally") == 0;
    bool fine;

    if (argc > 1 && !tally) {
        fputs("usage: packminder [tally]\n", stderr);
        return 2;
    }
    setvbuf(stdout, out, _IOFBF, sizeof out);
    fine = run(tally);
    if (fflush(stdout) != 0) {
        fine = false;
    }
    return fine ? 0 : 1;
}
