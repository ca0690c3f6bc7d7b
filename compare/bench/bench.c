/*
 * Calls JUDGE, READ, SALVAGE, PACE, WRITE, CREATE or DELETE on the image in a file, so many times over, and prints a number made of all answers of the last time.
 *
 *   bench judge IMAGE TIMES
 *   bench read IMAGE TIMES PLACES       one time is a call at each place of the list ('compare walk'), on slot 1
 *   bench salvage IMAGE TIMES PLACES
 *   bench pace-read IMAGE TIMES         one time is the whole file in slot 1, opened once
 *   bench pace-salvage IMAGE TIMES
 *   bench write IMAGE TIMES             one time is the file in slot 1 written, over what the time before left: a list without records
 *   bench write IMAGE TIMES BODIES LENGTHS   the same with the bodies of a file and the lengths that the lines of another say
 *   bench create IMAGE TIMES N          one time is a file of N records created, its slot given up again behind it by two bytes
 *   bench delete IMAGE TIMES SLOT       one time is the file in a slot deleted, the two bytes put back behind it
 */
#include <stdint.h>
#include <stdio.h>
#include <stdlib.h>
#include <string.h>

uint64_t JUDGE(const uint8_t *image, uint64_t length);
uint64_t READ(const uint8_t *image, uint64_t length, uint64_t slot, uint64_t block, uint64_t offset, uint64_t mark, uint8_t *out, uint64_t room);
uint64_t SALVAGE(const uint8_t *image, uint64_t length, uint64_t slot, uint64_t block, uint64_t offset, uint64_t mark, uint8_t *out, uint64_t room);
uint64_t PACE(const uint8_t *image, uint64_t length, uint64_t slot, uint64_t salvage, uint8_t *out, uint64_t room);
uint64_t WRITE(uint8_t *image, uint64_t length, uint64_t slot, const uint8_t *bodies, uint64_t total, const uint32_t *lengths, uint64_t count);
uint64_t CREATE(uint8_t *image, uint64_t length, const uint8_t *fields, uint64_t fields_length, uint64_t n);
uint64_t DELETE(uint8_t *image, uint64_t length, uint64_t slot);

struct place {
    unsigned long long block, offset, mark;
};

static uint8_t image[6000000], out[6000000];
static uint64_t length;
static struct place places[100000];
static size_t asked;
static uint8_t bodies[6000000];
static uint32_t lengths[2000000];
static size_t total, records;

static int load(const char *name, uint8_t *bytes, size_t most, size_t *count) {
    FILE *file = fopen(name, "rb");
    if (!file)
        return 0;
    *count = fread(bytes, 1, most, file);
    return 1;
}

static int load_image(const char *name) {
    size_t count = 0;
    int loaded = load(name, image, sizeof image, &count);
    length = count;
    return loaded;
}

static int load_list(const char *of_bodies, const char *of_lengths) {
    FILE *file = fopen(of_lengths, "r");
    unsigned record;
    if (!file || !load(of_bodies, bodies, sizeof bodies, &total))
        return 0;
    while (records < sizeof lengths / sizeof *lengths && fscanf(file, "%u", &record) == 1)
        lengths[records++] = record;
    return 1;
}

/* the first line says how many places there are in all */
static int load_places(const char *name) {
    FILE *file = fopen(name, "r");
    struct place place;
    if (!file || fscanf(file, "%*u") != 0)
        return 0;
    while (asked < sizeof places / sizeof *places && fscanf(file, "%llu %llu %llu", &place.block, &place.offset, &place.mark) == 3)
        places[asked++] = place;
    return asked > 0;
}

/* an answer, and the record's body, mixed into what was before (FNV-1a) */
static uint64_t mixed(uint64_t before, uint64_t answer) {
    uint64_t body = answer >> 56 == 0 ? answer >> 32 : 0;
    for (int shift = 0; shift < 64; shift += 8)
        before = (before ^ (answer >> shift & 0xFF)) * 0x100000001B3u;
    for (uint64_t i = 0; i < body && i < sizeof out; i++)
        before = (before ^ out[i]) * 0x100000001B3u;
    return before;
}

static uint64_t judged(long times) {
    uint64_t answer = 0;
    for (; times > 0; times--)
        answer = JUDGE(image, length);
    return answer;
}

static uint64_t paced(int salvaging, long times) {
    uint64_t answers = 0;
    for (; times > 0; times--)
        answers = PACE(image, length, 1, salvaging, out, sizeof out);
    return answers;
}

/* the number of answers, and what the records have left in the output */
static void show_paced(uint64_t answers) {
    uint64_t all = 0xCBF29CE484222325u;
    for (size_t i = 0; i < 65536; i++)
        all = (all ^ out[i]) * 0x100000001B3u;
    printf("%llu-%016llx\n", (unsigned long long)answers, (unsigned long long)all);
}

/* Only the last time mixes, so that the difference between two times and one is calls alone. */
static uint64_t walked(int salvaging, long times) {
    uint64_t all = 0xCBF29CE484222325u;
    for (; times > 0; times--)
        for (size_t i = 0; i < asked; i++) {
            struct place at = places[i];
            uint64_t answer = salvaging ? SALVAGE(image, length, 1, at.block, at.offset, at.mark, out, sizeof out)
                                        : READ(image, length, 1, at.block, at.offset, at.mark, out, sizeof out);
            if (times == 1)
                all = mixed(all, answer);
        }
    return all;
}

/* the answer of the last time, and what the image then is */
static int show_changed(uint64_t answer) {
    uint64_t all = 0xCBF29CE484222325u;
    for (size_t i = 0; i < length; i++)
        all = (all ^ image[i]) * 0x100000001B3u;
    printf("%llx-%016llx\n", (unsigned long long)answer, (unsigned long long)all);
    return 0;
}

static int write_over(int count, char **arguments) {
    uint64_t answer = 0;
    if (!load_image(arguments[2]) || (count == 6 && !load_list(arguments[4], arguments[5])))
        return 1;
    for (long times = atol(arguments[3]); times > 0; times--)
        answer = WRITE(image, length, 1, bodies, total, lengths, records);
    return show_changed(answer);
}

/* a slot's kind and its first byte, as long as the call was done */
static void put_back(uint64_t answer, uint64_t slot, uint8_t kind, uint8_t first) {
    if (answer >> 56 == 0)
        image[(slot + 6) * 129] = kind, image[(slot + 6) * 129 + 1] = first;
}

/* name, B, format, level, R and blocking of a file that may stand on every volume */
static const uint8_t fields[] = "NEW MACHINE PARTS00128F20064B";

static int place_over(int creating, char **arguments) {
    uint64_t answer = 0, number = strtoull(arguments[4], 0, 10);
    if (!load_image(arguments[2]))
        return 1;
    for (long times = atol(arguments[3]); times > 0; times--)
        if (creating) {
            answer = CREATE(image, length, fields, sizeof fields - 1, number);
            put_back(answer, answer >> 24, 16, 'D');
        } else {
            answer = DELETE(image, length, number);
            put_back(answer, number, 0, 'H');
        }
    return show_changed(answer);
}

int main(int count, char **arguments) {
    if (count < 4)
        return 2;
    if (strcmp(arguments[1], "write") == 0)
        return write_over(count, arguments);
    if (strcmp(arguments[1], "create") == 0 || strcmp(arguments[1], "delete") == 0)
        return count == 5 ? place_over(arguments[1][0] == 'c', arguments) : 2;
    int judging = strcmp(arguments[1], "judge") == 0, pacing = strncmp(arguments[1], "pace-", 5) == 0;
    if (!load_image(arguments[2]) || (!judging && !pacing && (count != 5 || !load_places(arguments[4]))))
        return 1;
    long times = atol(arguments[3]);
    int salvaging = strcmp(arguments[1], "salvage") == 0 || strcmp(arguments[1], "pace-salvage") == 0;
    if (pacing) {
        show_paced(paced(salvaging, times));
        return 0;
    }
    uint64_t answer = judging ? judged(times) : walked(salvaging, times);
    printf("%016llx\n", (unsigned long long)answer);
    return 0;
}
