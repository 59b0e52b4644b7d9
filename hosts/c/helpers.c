/* Tests the helpers of the header, in C and in C++: the words of refusals, which stand in tests/refusals.tsv, steps and
 * measures put into bytes and read back, what does not fit, and the version. The last line is 'N passed, N failed'. */
#include "check.h"
#include "dossier.h"

#include <stdlib.h>
#include <string.h>

/* What bytes hold that no helper put, and how many bytes are looked at. */
enum { FILL = 0xa5, ROOM = 8 };

/* The words for a number that no call answers. */
static const char no_number[] = "no number of this version";

/* A refusal's name in the header, without what all begin with, and its number. */
struct named {
    const char *name;
    uint32_t number;
};

/* A name and a label, and the step's bytes. */
struct step {
    uint32_t name;
    uint32_t label;
    uint8_t bytes[DOSSIER_STEP_BYTES];
};

/* A measure and its bytes. */
struct measure {
    int64_t hundredths;
    uint8_t bytes[DOSSIER_MEASURE_BYTES];
};

static uint8_t store[DOSSIER_STORE_BYTES];
static uint8_t output[256];
static const uint8_t none[1] = {0};

/* The version's text is that of its numbers. */
static void test_version(void)
{
    char text[32];
    snprintf(text, sizeof text, "%d.%d.%d", DOSSIER_VERSION_MAJOR, DOSSIER_VERSION_MINOR, DOSSIER_VERSION_PATCH);
    check("the version's text", strcmp(text, DOSSIER_VERSION) == 0);
    check("the version", strcmp(DOSSIER_VERSION, "1.0.0") == 0);
}

/* A refusal's name and number. */
#define NAMED(name) {#name, DOSSIER_REFUSED_##name}

/* The refusals, in the order of their numbers. */
static const struct named refusals[] = {
    NAMED(STORE_LENGTH), NAMED(SUBJECT), NAMED(NOT_WELL_FORMED), NAMED(PATH), NAMED(VALUE), NAMED(OTHER_LABEL), NAMED(ABSENT),
    NAMED(LIVE), NAMED(FULL), NAMED(OUTPUT_SHORT), NAMED(SIZES), NAMED(NO_MEASURE), NAMED(FORM), NAMED(NOT_OWN),
};

/* How many they are. */
enum { REFUSALS = sizeof refusals / sizeof *refusals };

/* The helper's words for the refusal of a line are the line's: its number, its name and its cause are parted by tabs. */
static void check_line(char *line, size_t at)
{
    char *name = strchr(line, '\t');
    char *cause = name == NULL ? NULL : strchr(name + 1, '\t');
    check(line, cause != NULL && at < REFUSALS);
    if (cause == NULL || at >= REFUSALS) {
        return;
    }
    *cause = '\0';
    cause[1 + strcspn(cause + 1, "\n")] = '\0';
    check("a number", strtoul(line, NULL, 10) == at + 1 && refusals[at].number == at + 1);
    check("a name", strcmp(name + 1, refusals[at].name) == 0);
    check(cause + 1, strcmp(dossier_refusal_text(refusals[at].number), cause + 1) == 0);
}

/* The words of each refusal are those of the file, line by line; other numbers have words of their own. */
static void test_refusals(void)
{
    char line[256];
    size_t lines = 0;
    FILE *file = fopen("tests/refusals.tsv", "r");
    check("the file of refusals", file != NULL);
    while (file != NULL && fgets(line, sizeof line, file) != NULL) {
        check_line(line, lines++);
    }
    check("each refusal has a line", lines == REFUSALS && lines == 14);
    check("0", strcmp(dossier_refusal_text(DOSSIER_DONE), "the call is done") == 0);
    check("15", strcmp(dossier_refusal_text(15), no_number) == 0);
    check("263, which is 7 in eight bits", strcmp(dossier_refusal_text(263), no_number) == 0);
    check("the largest number", strcmp(dossier_refusal_text(4294967295u), no_number) == 0);
    if (file != NULL) {
        fclose(file);
    }
}

/* Whether bytes are these and hold FILL behind them. */
static int is_put(const uint8_t *bytes, const uint8_t *expected, size_t length)
{
    for (size_t at = length; at < ROOM; at++) {
        if (bytes[at] != FILL) {
            return 0;
        }
    }
    return memcmp(bytes, expected, length) == 0;
}

/* Steps at the edges, and what is no step: its name is 0 or its label is over 31. */
static void test_steps(void)
{
    static const struct step steps[] = {
        {10, 0, {10, 0, 0}}, {20, 16, {20, 0, 16}}, {1, 31, {1, 0, 31}}, {255, 1, {255, 0, 1}}, {256, 1, {0, 1, 1}},
        {258, 24, {2, 1, 24}}, {65280, 8, {0, 255, 8}}, {65535, 31, {255, 255, 31}}, {0, 0, {0, 0, 0}}, {65536, 0, {0, 0, 0}},
        {65546, 16, {0, 0, 16}}, {65791, 3, {0, 0, 3}}, {4294967295u, 5, {0, 0, 5}}, {10, 32, {10, 0, 32}},
        {10, 255, {10, 0, 255}}, {10, 256, {10, 0, 255}}, {10, 272, {10, 0, 255}}, {10, 287, {10, 0, 255}},
        {10, 4294967295u, {10, 0, 255}},
    };
    uint8_t bytes[ROOM];
    for (size_t at = 0; at < sizeof steps / sizeof *steps; at++) {
        memset(bytes, FILL, sizeof bytes);
        size_t put = dossier_put_step(bytes, steps[at].name, steps[at].label);
        check("a step has three bytes", put == 3);
        check("the bytes of a step", is_put(bytes, steps[at].bytes, 3));
    }
}

/* Every name and every label of a byte is read back as it was put. */
static void test_steps_read(void)
{
    uint8_t bytes[DOSSIER_STEP_BYTES];
    int names = 0, labels = 0;
    for (uint32_t name = 0; name <= 65535; name++) {
        uint32_t label = name % 256;
        size_t put = dossier_put_step(bytes, name, label);
        names += put == 3 && dossier_read_name(bytes) == name;
        labels += dossier_read_label(bytes) == label;
    }
    check("every name", names == 65536);
    check("every label", labels == 65536);
    static const uint8_t read[] = {2, 1, 24};
    check("a name of two bytes", dossier_read_name(read) == 258);
    check("its label", dossier_read_label(read) == 24);
}

/* The measures at the edges of their bytes. */
static const struct measure measures[] = {
    {0, {0, 0, 0, 0}}, {1, {1, 0, 0, 0}}, {-1, {255, 255, 255, 255}}, {-150, {0x6a, 0xff, 0xff, 0xff}}, {850, {0x52, 3, 0, 0}},
    {255, {255, 0, 0, 0}}, {256, {0, 1, 0, 0}}, {-256, {0, 255, 255, 255}}, {-257, {255, 254, 255, 255}},
    {65535, {255, 255, 0, 0}}, {65536, {0, 0, 1, 0}}, {16777215, {255, 255, 255, 0}}, {16777216, {0, 0, 0, 1}},
    {-16777217, {255, 255, 255, 254}}, {2147483646, {254, 255, 255, 127}}, {2147483647, {255, 255, 255, 127}},
    {-2147483647, {1, 0, 0, 128}}, {-2147483648, {0, 0, 0, 128}}, {305419896, {0x78, 0x56, 0x34, 0x12}},
};

/* Measures are put and read back. */
static void test_measures(void)
{
    uint8_t bytes[ROOM];
    for (size_t at = 0; at < sizeof measures / sizeof *measures; at++) {
        memset(bytes, FILL, sizeof bytes);
        size_t put = dossier_put_measure(bytes, measures[at].hundredths);
        check("a measure has four bytes", put == 4);
        check("the bytes of a measure", is_put(bytes, measures[at].bytes, 4));
        check("a measure read back", dossier_read_measure(measures[at].bytes) == measures[at].hundredths);
    }
}

/* A number that does not fit 32 bits with a sign puts nothing: 2 to the 32 and 850, too, which would be 850 in 32 bits. */
static void test_measures_too_large(void)
{
    static const int64_t numbers[] = {2147483648, -2147483649, 4294967296, 4294968146, -4294967296, INT64_MAX, INT64_MIN};
    uint8_t bytes[ROOM];
    memset(bytes, FILL, sizeof bytes);
    for (size_t at = 0; at < sizeof numbers / sizeof *numbers; at++) {
        size_t put = dossier_put_measure(bytes, numbers[at]);
        check("what is no measure", put == 0 && is_put(bytes, none, 0));
    }
}

/* Inserts a measure at NAME:LABEL by a subject; the answer's number. */
static uint32_t insert(uint32_t subject, uint32_t name, uint32_t label, int64_t hundredths)
{
    uint8_t path[DOSSIER_PATH_BYTES_MAX], value[DOSSIER_MEASURE_BYTES];
    size_t length = dossier_put_step(path, name, label);
    size_t put = dossier_put_measure(value, hundredths);
    return dossier_insert(store, sizeof store, subject, path, length, DOSSIER_KIND_MEASURE, value, put).number;
}

/* What does not fit is refused by the call, never taken for what its lowest bits say. */
static void test_calls(void)
{
    static const char seen[] = "VIEW\t31\t2\n1\t10\t31\tP\tM\t-150\n1\t65535\t0\tP\tM\t2147483647\n";
    memset(store, 0, sizeof store);
    check("4, a name of 65546", insert(0, 65546, 0, 850) == 4);
    check("4, a name of 65536", insert(0, 65536, 0, 850) == 4);
    check("4, a label of 287", insert(31, 10, 287, 850) == 4);
    check("4, a label of 256", insert(0, 10, 256, 850) == 4);
    check("4, a label of 32", insert(0, 10, 32, 850) == 4);
    check("5, a measure of 2147483648", insert(0, 10, 0, 2147483648) == 5);
    check("5, a measure of -2147483649", insert(0, 10, 0, -2147483649) == 5);
    check("10:31", insert(31, 10, 31, -150) == DOSSIER_DONE);
    check("65535:0", insert(0, 65535, 0, 2147483647) == DOSSIER_DONE);
    struct dossier_answer answer = dossier_view(store, sizeof store, 31, none, 0, output, sizeof output);
    check("their view", answer.count == sizeof seen - 1 && memcmp(output, seen, sizeof seen - 1) == 0);
}

/* A path of six steps fits the longest one, and a text the longest value: both are taken, and one more is not. */
static void test_lengths(void)
{
    uint8_t path[DOSSIER_PATH_BYTES_MAX + DOSSIER_STEP_BYTES], text[DOSSIER_TEXT_BYTES_MAX + 1];
    size_t length = 0;
    memset(store, 0, sizeof store);
    memset(text, 'X', sizeof text);
    while (length < DOSSIER_PATH_BYTES_MAX) {
        length += dossier_put_step(path + length, 10, 0);
    }
    struct dossier_answer answer
        = dossier_insert(store, sizeof store, 0, path, length, DOSSIER_KIND_TEXT, text, DOSSIER_TEXT_BYTES_MAX);
    check("six steps and the longest text", answer.number == DOSSIER_DONE && answer.count == 5 && length == 18);
    answer = dossier_update(store, sizeof store, 0, path, length, DOSSIER_KIND_TEXT, text, sizeof text);
    check("5, a longer text", answer.number == 5);
    length += dossier_put_step(path + length, 10, 0);
    answer = dossier_insert(store, sizeof store, 0, path, length, DOSSIER_KIND_TEXT, text, 1);
    check("4, seven steps", answer.number == 4);
}

/* A label is level x 8 + compartments, whatever stands for them. */
static void test_labels(void)
{
    check("low levels", DOSSIER_LEVEL_OPEN == 0 && DOSSIER_LEVEL_TRADE == 1);
    check("high levels", DOSSIER_LEVEL_HOUSE == 2 && DOSSIER_LEVEL_SEALED == 3);
    check("compartments", DOSSIER_COMPARTMENT_SIZING == 1 && DOSSIER_COMPARTMENT_FABRIC == 2 && DOSSIER_COMPARTMENT_COST == 4);
    check("a label", DOSSIER_LABEL(DOSSIER_LEVEL_TRADE, DOSSIER_COMPARTMENT_FABRIC + DOSSIER_COMPARTMENT_COST) == 14);
    check("a label of sums", DOSSIER_LABEL(1 + 1, 1 | 2) * 2 == 38);
}

int main(void)
{
    test_version();
    test_labels();
    test_refusals();
    test_steps();
    test_steps_read();
    test_measures();
    test_measures_too_large();
    test_calls();
    test_lengths();
    return ended();
}
