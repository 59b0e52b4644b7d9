/* Tests the C declarations: answers, listings, XML, what refusals leave untouched, what an update keeps, missing groups, grades,
 * styles taken in as XML, the order of versions, and the migration of stores written before, a store file of tests among them.
 * The last line is 'N passed, N failed'. */
#include "check.h"
#include "dossier.h"

#include <string.h>

/* A path or a value lent to a call, with its length. */
#define LENT(bytes) bytes, sizeof bytes

/* What every output holds before a call. */
enum { FILL = 0xa5 };

/* The store, with one byte behind it so that a longer one can be lent; a copy of it; an output. */
static uint8_t store[DOSSIER_STORE_BYTES + 1];
static uint8_t kept[DOSSIER_STORE_BYTES + 1];
static uint8_t output[2048];

/* Paths: the root, 10:0, below it 20:16, 7:0 and 30:0, 5:16 below 20:16, 40:0 and 35:16 below 30:0, 10:16, 11:16 and 9:0. */
static const uint8_t none[1];
static const uint8_t p10[] = {10, 0, 0};
static const uint8_t p10_20[] = {10, 0, 0, 20, 0, 16};
static const uint8_t p10_20_5[] = {10, 0, 0, 20, 0, 16, 5, 0, 16};
static const uint8_t p10_7[] = {10, 0, 0, 7, 0, 0};
static const uint8_t p10_30[] = {10, 0, 0, 30, 0, 0};
static const uint8_t p10_30_40[] = {10, 0, 0, 30, 0, 0, 40, 0, 0};
static const uint8_t p10_30_35[] = {10, 0, 0, 30, 0, 0, 35, 0, 16};
static const uint8_t p10_16[] = {10, 0, 16};
static const uint8_t p11_16[] = {11, 0, 16};
static const uint8_t p9[] = {9, 0, 0};

/* -150 as a measure. */
static const uint8_t measure[] = {0x6a, 0xff, 0xff, 0xff};

/* The last listing of document 01's example. */
static const char listing[] = "VIEW\t16\t2\n1\t10\t0\tR\t-\t-\n2\t20\t16\tP\tM\t-150\n";

/* Whether an output holds FILL from a byte on. */
static int is_untouched_from(size_t start)
{
    for (size_t at = start; at < sizeof output; at++) {
        if (output[at] != FILL) {
            return 0;
        }
    }
    return 1;
}

/* An empty store and an output full of FILL. */
static void start(void)
{
    memset(store, 0, sizeof store);
    memset(output, FILL, sizeof output);
}

/* Keeps a copy of the store, for the refusals that follow. */
static void keep(void)
{
    memcpy(kept, store, sizeof store);
}

/* A call is done with a count. */
static void done(const char *name, struct dossier_answer answer, uint64_t count)
{
    check(name, answer.number == DOSSIER_DONE && answer.count == count);
}

/* A call is refused by a number, with count 0, and leaves the store that was kept and the output. */
static void refused(const char *name, struct dossier_answer answer, uint32_t number)
{
    check(name, answer.number == number && answer.count == 0 && memcmp(store, kept, sizeof store) == 0 && is_untouched_from(0));
}

/* A grade has a step and a remainder and leaves the store that was kept. */
static void graded(const char *name, struct dossier_grade grade, int64_t step, uint32_t remainder)
{
    check(name, grade.number == DOSSIER_DONE && grade.step == step && grade.remainder == remainder
                    && memcmp(store, kept, sizeof store) == 0);
}

/* A grade is refused by a number, with step 0 and remainder 0, and leaves the store that was kept. */
static void not_graded(const char *name, struct dossier_grade grade, uint32_t number)
{
    check(name, grade.number == number && grade.step == 0 && grade.remainder == 0 && memcmp(store, kept, sizeof store) == 0);
}

/* The calls on a store of the right length. */
static struct dossier_answer view(uint32_t subject, const uint8_t *path, size_t length, size_t room)
{
    return dossier_view(store, DOSSIER_STORE_BYTES, subject, path, length, output, room);
}

static struct dossier_answer view_xml(uint32_t subject, const uint8_t *path, size_t length, size_t room)
{
    return dossier_view_xml(store, DOSSIER_STORE_BYTES, subject, path, length, output, room);
}

static struct dossier_answer insert(uint32_t subject, const uint8_t *path, size_t length, uint32_t kind, const uint8_t *value,
                                    size_t value_length)
{
    return dossier_insert(store, DOSSIER_STORE_BYTES, subject, path, length, kind, value, value_length);
}

static struct dossier_answer update(uint32_t subject, const uint8_t *path, size_t length, uint32_t kind, const uint8_t *value,
                                    size_t value_length)
{
    return dossier_update(store, DOSSIER_STORE_BYTES, subject, path, length, kind, value, value_length);
}

static struct dossier_answer delete(uint32_t subject, const uint8_t *path, size_t length)
{
    return dossier_delete(store, DOSSIER_STORE_BYTES, subject, path, length);
}

static struct dossier_grade grade(uint32_t subject, const uint8_t *base, size_t base_length, const uint8_t *top,
                                  size_t top_length, uint32_t n)
{
    return dossier_grade(store, DOSSIER_STORE_BYTES, subject, base, base_length, top, top_length, n);
}

static struct dossier_answer insert_xml(uint32_t subject, const uint8_t *parent, size_t length, const char *text)
{
    return dossier_insert_xml(store, DOSSIER_STORE_BYTES, subject, parent, length, (const uint8_t *)text, strlen(text));
}

/* Inserts a group. */
static struct dossier_answer insert_group(uint32_t subject, const uint8_t *path, size_t length)
{
    return insert(subject, path, length, DOSSIER_KIND_GROUP, none, 0);
}

/* The answers lie in memory as the library returns them. */
static void test_answer(void)
{
    check("the answer has 16 bytes", sizeof(struct dossier_answer) == 16);
    check("the count is at byte 8", offsetof(struct dossier_answer, count) == 8);
    check("a grade has 24 bytes", sizeof(struct dossier_grade) == 24);
    check("the step is at byte 8", offsetof(struct dossier_grade, step) == 8);
    check("the remainder is at byte 16", offsetof(struct dossier_grade, remainder) == 16);
    check("a migration has 8 bytes", sizeof(struct dossier_migration) == 8);
    check("the mask is at byte 4", offsetof(struct dossier_migration, mask) == 4);
}

/* The calls of document 01's example that change the store. */
static void make_example(void)
{
    start();
    done("insert 10:0 by 0", insert_group(0, LENT(p10)), 0);
    done("insert 10:0/20:16 by 16", insert(16, LENT(p10_20), DOSSIER_KIND_MEASURE, LENT(measure)), 0);
    done("delete 10:0 by 0", delete(0, LENT(p10)), 1);
}

/* Document 01's example: 40 bytes hold its last listing, 39 do not. */
static void test_example(void)
{
    make_example();
    keep();
    done("0 sees nothing", view(0, none, 0, sizeof output), 9);
    check("the listing for 0", memcmp(output, "VIEW\t0\t0\n", 9) == 0 && is_untouched_from(9));
    memset(output, FILL, sizeof output);
    refused("39 bytes are too short", view(16, none, 0, 39), DOSSIER_REFUSED_OUTPUT_SHORT);
    done("40 bytes suffice", view(16, none, 0, 40), 40);
    check("the listing for 16", memcmp(output, listing, 40) == 0 && is_untouched_from(40));
    check("a view leaves the store", memcmp(store, kept, sizeof store) == 0);
}

/* The removed element inserted again as a text. */
static void test_again(void)
{
    static const char seen[] = "VIEW\t16\t2\n1\t10\t0\tP\tT\tSLEEVE\n2\t20\t16\tP\tM\t-150\n";
    make_example();
    done("insert 10:0 again", insert(0, LENT(p10), DOSSIER_KIND_TEXT, (const uint8_t *)"SLEEVE", 6), 0);
    done("16 sees both", view(16, LENT(p10), sizeof output), sizeof seen - 1);
    check("their listing", memcmp(output, seen, sizeof seen - 1) == 0 && is_untouched_from(sizeof seen - 1));
}

/* The XML of a view, and of 5:16, of 10:0 with what is below it and of 11:16 in the worked examples. */
#define XML(subject, elements) "<dossier subject=\"" subject "\">" elements "</dossier>"
#define E5 "<e5 label=\"16\" preserve=\"PRESENT\" kind=\"T\">a&lt;b &amp; \"c\"&gt;d</e5>"
#define E20 "<e20 label=\"16\" preserve=\"PRESENT\" kind=\"M\">-150" E5 "</e20>"
#define E10 "<e10 label=\"0\" preserve=\"REMOVED\" kind=\"-\">" E20 "</e10>"
#define E11 "<e11 label=\"16\" preserve=\"PRESENT\" kind=\"T\">&amp;</e11>"

/* A view has this XML: an output of its length suffices, one byte less does not. */
static void is_xml(uint32_t subject, const uint8_t *path, size_t length, size_t bytes, const char *xml)
{
    memset(output, FILL, sizeof output);
    refused(xml, view_xml(subject, path, length, bytes - 1), DOSSIER_REFUSED_OUTPUT_SHORT);
    refused(xml, view_xml(subject, path, length, 0), DOSSIER_REFUSED_OUTPUT_SHORT);
    done(xml, view_xml(subject, path, length, bytes), bytes);
    check(xml, strlen(xml) == bytes && memcmp(output, xml, bytes) == 0 && is_untouched_from(bytes));
    memset(output, FILL, sizeof output);
    done(xml, view_xml(subject, path, length, sizeof output), bytes);
    check(xml, memcmp(output, xml, bytes) == 0 && is_untouched_from(bytes));
}

/* The worked examples of XML: removed, nested and escaped. */
static void test_xml(void)
{
    start();
    done("insert 10:0", insert_group(0, LENT(p10)), 0);
    done("insert 10:0/20:16", insert(16, LENT(p10_20), DOSSIER_KIND_MEASURE, LENT(measure)), 0);
    done("insert 10:0/20:16/5:16", insert(16, LENT(p10_20_5), DOSSIER_KIND_TEXT, (const uint8_t *)"a<b & \"c\">d", 11), 0);
    done("insert 11:16", insert(16, LENT(p11_16), DOSSIER_KIND_TEXT, (const uint8_t *)"&", 1), 0);
    done("insert 10:0/7:0", insert(0, LENT(p10_7), DOSSIER_KIND_TEXT, (const uint8_t *)"SLEEVE", 6), 0);
    done("delete 10:0", delete(0, LENT(p10)), 2);
    keep();
    is_xml(0, none, 0, 31, XML("0", ""));
    is_xml(16, none, 0, 259, XML("16", E10 E11));
    is_xml(16, LENT(p10), 204, XML("16", E10));
    is_xml(16, LENT(p10_20_5), 101, XML("16", E5));
    is_xml(16, LENT(p11_16), 87, XML("16", E11));
    is_xml(8, none, 0, 31, XML("8", ""));
    memset(output, FILL, sizeof output);
    refused("9:0 is not there", view_xml(16, LENT(p9), sizeof output), DOSSIER_REFUSED_ABSENT);
    check("a view as XML leaves the store", memcmp(store, kept, sizeof store) == 0);
}

/* A subject sees these lines, and nothing behind them is written. */
static void sees(const char *name, uint32_t subject, const char *lines)
{
    size_t length = strlen(lines);
    memset(output, FILL, sizeof output);
    done(name, view(subject, none, 0, sizeof output), length);
    check(name, memcmp(output, lines, length) == 0 && is_untouched_from(length));
    memset(output, FILL, sizeof output);
}

/* 10:0, 10:0/30:0 with a value, 10:0/30:0/40:0, and 10:0/30:0/35:16 by 16. */
static void make_nested(uint32_t kind, const uint8_t *value, size_t value_length)
{
    start();
    done("insert 10:0", insert_group(0, LENT(p10)), 0);
    done("insert 10:0/30:0", insert(0, LENT(p10_30), kind, value, value_length), 0);
    done("insert 10:0/30:0/40:0", insert_group(0, LENT(p10_30_40)), 0);
    done("insert 10:0/30:0/35:16", insert_group(16, LENT(p10_30_35)), 0);
}

/* An update replaces one value and keeps what is below: the store is as if the element had been inserted so. */
static void test_update(void)
{
    make_nested(DOSSIER_KIND_MEASURE, LENT(measure));
    keep();
    make_nested(DOSSIER_KIND_TEXT, (const uint8_t *)"SIXTEEN LETTERS.", 16);
    done("an update replaces one", update(0, LENT(p10_30), DOSSIER_KIND_MEASURE, LENT(measure)), 1);
    check("all else is kept", memcmp(store, kept, sizeof store) == 0);
    refused("9:0 is not there to be updated", update(0, LENT(p9), DOSSIER_KIND_GROUP, none, 0), DOSSIER_REFUSED_ABSENT);
    sees("0 still sees what is below", 0, "VIEW\t0\t3\n1\t10\t0\tP\tG\t-\n2\t30\t0\tP\tM\t-150\n3\t40\t0\tP\tG\t-\n");
    sees("16 still sees what is below", 16,
         "VIEW\t16\t4\n1\t10\t0\tP\tG\t-\n2\t30\t0\tP\tM\t-150\n3\t35\t16\tP\tG\t-\n3\t40\t0\tP\tG\t-\n");
    done("an update of the one above", update(0, LENT(p10), DOSSIER_KIND_TEXT, (const uint8_t *)"PIECE", 5), 1);
    sees("0 sees the text above", 0, "VIEW\t0\t3\n1\t10\t0\tP\tT\tPIECE\n2\t30\t0\tP\tM\t-150\n3\t40\t0\tP\tG\t-\n");
}

/* What an update and a delete count. */
static void test_counts(void)
{
    make_nested(DOSSIER_KIND_GROUP, none, 0);
    done("an update counts one", update(0, LENT(p10_30), DOSSIER_KIND_MEASURE, LENT(measure)), 1);
    done("a delete takes three", delete(0, LENT(p10)), 3);
    sees("16 sees what is left", 16, "VIEW\t16\t3\n1\t10\t0\tR\t-\t-\n2\t30\t0\tR\t-\t-\n3\t35\t16\tP\tG\t-\n");
    done("a delete takes one", delete(16, LENT(p10_30_35)), 1);
    keep();
    memset(store, 0, sizeof store);
    check("the store is empty again", memcmp(store, kept, sizeof store) == 0);
}

/* Missing groups: an insert makes those of the subject's label and counts them. A missing step of another label is refused by 7. */
static void test_groups(void)
{
    static const uint8_t made[] = {10, 0, 0, 20, 0, 0, 30, 0, 0};
    static const uint8_t below[] = {10, 0, 0, 21, 0, 16, 22, 0, 16, 23, 0, 16};
    static const uint8_t deep[] = {12, 0, 16, 1, 0, 16, 2, 0, 16, 3, 0, 16, 4, 0, 16, 5, 0, 16};
    static const uint8_t other[] = {10, 0, 0, 24, 0, 0, 25, 0, 16, 26, 0, 16};
    start();
    done("two groups are made", insert(0, LENT(made), DOSSIER_KIND_MEASURE, LENT(measure)), 2);
    sees("0 sees the groups", 0, "VIEW\t0\t3\n1\t10\t0\tP\tG\t-\n2\t20\t0\tP\tG\t-\n3\t30\t0\tP\tM\t-150\n");
    done("two groups of 16 are made", insert(16, LENT(below), DOSSIER_KIND_MEASURE, LENT(measure)), 2);
    done("five groups are made", insert_group(16, LENT(deep)), 5);
    keep();
    memset(output, FILL, sizeof output);
    refused("8, with its groups", insert_group(16, LENT(deep)), 8);
    refused("7, a missing step of another label", insert_group(16, LENT(other)), 7);
    refused("7, an update makes no groups", update(0, LENT(p10_30_40), DOSSIER_KIND_GROUP, none, 0), 7);
    refused("7, an XML intake makes no groups", insert_xml(0, LENT(p10_7), "<e4 label=\"0\" preserve=\"PRESENT\" kind=\"G\"></e4>"), 7);
    done("a delete takes the groups", delete(0, LENT(p10)), 3);
    done("a removed parent is in view", insert_group(16, LENT(p10_20)), 0);
    done("the removed element is made", insert_group(0, LENT(p10_30)), 1);
}

/* 9: room for the element and not for its missing groups. */
static void test_groups_room(void)
{
    static const uint8_t deep[] = {200, 0, 16, 1, 0, 16, 2, 0, 16};
    uint8_t path[] = {0, 0, 16};
    start();
    for (path[0] = 1; path[0] <= 30; path[0]++) {
        done("one of 30", insert_group(16, LENT(path)), 0);
    }
    keep();
    refused("9, one more than there is room for", insert_group(16, LENT(deep)), 9);
    done("one group is made", insert_group(16, deep, 6), 1);
    keep();
    refused("9, a full partition", insert_group(16, LENT(deep)), 9);
    done("a delete", delete(16, LENT(p10_16)), 1);
    done("the groups are there", insert_group(16, LENT(deep)), 0);
}

/* 1: a store of another length, whatever else is wrong. */
static void test_store_length(void)
{
    static const size_t lengths[] = {0, 1, DOSSIER_STORE_BYTES - 1, DOSSIER_STORE_BYTES + 1};
    start();
    keep();
    for (size_t at = 0; at < sizeof lengths / sizeof *lengths; at++) {
        size_t length = lengths[at];
        refused("view: length", dossier_view(store, length, 40, LENT(p10), output, sizeof output), 1);
        refused("view as XML: length", dossier_view_xml(store, length, 40, LENT(p10), output, sizeof output), 1);
        refused("insert: length", dossier_insert(store, length, 0, LENT(p10), 0, none, 0), 1);
        refused("update: length", dossier_update(store, length, 0, LENT(p10), 0, none, 0), 1);
        refused("delete: length", dossier_delete(store, length, 0, LENT(p10)), 1);
        not_graded("grade: length", dossier_grade(store, length, 40, LENT(p10), LENT(p10), 0), 1);
        refused("XML intake: length", dossier_insert_xml(store, length, 40, p10, 2, none, 0), 1);
    }
}

/* 2: a subject over 31, on all its bits. 287, 256 and 4294967264 would be labels in eight or five bits. */
static void test_subject(void)
{
    static const uint32_t subjects[] = {32, 256, 287, 4294967264u, 4294967295u};
    make_example();
    keep();
    for (size_t at = 0; at < sizeof subjects / sizeof *subjects; at++) {
        refused("view: subject", view(subjects[at], none, 0, sizeof output), 2);
        refused("view as XML: subject", view_xml(subjects[at], none, 0, sizeof output), 2);
        refused("insert: subject", insert_group(subjects[at], LENT(p10)), 2);
        refused("update: subject", update(subjects[at], LENT(p10), 0, none, 0), 2);
        refused("delete: subject", delete(subjects[at], LENT(p10)), 2);
        not_graded("grade: subject", grade(subjects[at], LENT(p10), LENT(p10), 0), 2);
        refused("XML intake: subject", insert_xml(subjects[at], p10, 2, ""), 2);
    }
}

/* 3: a partition that is not well formed stops those who dominate it, and nobody else. */
static void test_not_well_formed(void)
{
    start();
    store[16 * DOSSIER_PARTITION_BYTES] = 33;
    keep();
    refused("view: partition 16", view(16, none, 0, sizeof output), 3);
    refused("view as XML: partition 16", view_xml(20, none, 0, sizeof output), 3);
    refused("insert: partition 16", insert_group(31, LENT(p10)), 3);
    refused("update: partition 16", update(24, LENT(p10), 0, none, 0), 3);
    refused("delete: partition 16", delete(17, LENT(p10)), 3);
    not_graded("grade: partition 16", grade(18, LENT(p10), LENT(p10), 0), 3);
    refused("XML intake: partition 16", insert_xml(19, p10, 2, ""), 3);
    not_graded("grade: 15 does not dominate it", grade(15, LENT(p10), LENT(p10), 1), 7);
    done("15 does not dominate it", view(15, none, 0, sizeof output), 10);
}

/* 4: what is no path. */
static void test_path(void)
{
    static const uint8_t name_0[] = {0, 0, 0};
    static const uint8_t label_32[] = {10, 0, 32};
    static const uint8_t falling[] = {10, 0, 16, 20, 0, 9};
    static const uint8_t seven[21] = {1, 0, 0, 1, 0, 0, 1, 0, 0, 1, 0, 0, 1, 0, 0, 1, 0, 0, 1, 0, 0};
    start();
    keep();
    refused("name 0", view(0, LENT(name_0), sizeof output), 4);
    refused("name 0, as XML", view_xml(0, LENT(name_0), sizeof output), 4);
    refused("seven steps, as XML", view_xml(0, LENT(seven), sizeof output), 4);
    refused("label 32", insert_group(0, LENT(label_32)), 4);
    refused("labels not rising", insert_group(9, LENT(falling)), 4);
    refused("two bytes", delete(0, p10, 2), 4);
    refused("seven steps", update(0, LENT(seven), 0, none, 0), 4);
    refused("no step", insert_group(0, none, 0), 4);
    not_graded("grade: name 0", grade(0, LENT(name_0), LENT(p10), 0), 4);
    not_graded("grade: label 32, the top's", grade(0, LENT(p10), LENT(label_32), 0), 4);
    not_graded("grade: labels not rising", grade(9, LENT(falling), LENT(p10), 1), 4);
    not_graded("grade: two bytes, the top's", grade(0, LENT(p10), p10, 2, 1), 4);
    not_graded("grade: seven steps", grade(0, LENT(seven), none, 0, 1), 4);
    refused("XML intake: name 0", insert_xml(0, LENT(name_0), ""), 4);
    refused("XML intake: label 32", insert_xml(0, LENT(label_32), ""), 4);
    refused("XML intake: labels not rising", insert_xml(9, LENT(falling), ""), 4);
    refused("XML intake: two bytes", insert_xml(0, p10, 2, ""), 4);
    refused("XML intake: seven steps", insert_xml(0, LENT(seven), ""), 4);
}

/* 5: what is no value. A kind counts on all its bits: 256, 257 and 258 would be kinds in eight. */
static void test_value(void)
{
    static const uint8_t text[] = "SEVENTEEN LETTERS";
    static const uint32_t kinds[] = {3, 256, 258, 4294967295u};
    start();
    done("insert 10:0", insert_group(0, LENT(p10)), 0);
    keep();
    for (size_t at = 0; at < sizeof kinds / sizeof *kinds; at++) {
        refused("insert: kind", insert(0, LENT(p10_30), kinds[at], text, 1), 5);
        refused("update: kind", update(0, LENT(p10), kinds[at], text, 1), 5);
    }
    refused("kind 256 without bytes", insert(0, LENT(p10_30), 256, none, 0), 5);
    refused("kind 257 with a measure", insert(0, LENT(p10_30), 257, LENT(measure)), 5);
    refused("a text of no byte", insert(0, LENT(p10_30), DOSSIER_KIND_TEXT, none, 0), 5);
    refused("a text of 17 bytes", insert(0, LENT(p10_30), DOSSIER_KIND_TEXT, text, 17), 5);
    done("a text of 16 bytes", insert(0, LENT(p10_30), DOSSIER_KIND_TEXT, text, 16), 0);
}

/* 6, 7 and 8: another's label, what is not there, what is there already. */
static void test_place(void)
{
    start();
    keep();
    refused("7, view", view(0, LENT(p10), sizeof output), 7);
    refused("7, view as XML", view_xml(0, LENT(p10), sizeof output), 7);
    refused("7, insert", insert_group(16, LENT(p10_20)), 7);
    refused("7, update", update(0, LENT(p10), 0, none, 0), 7);
    refused("7, delete", delete(0, LENT(p10)), 7);
    done("insert 10:0", insert_group(0, LENT(p10)), 0);
    done("insert 10:16 beside it", insert_group(16, LENT(p10_16)), 0);
    keep();
    refused("6, insert", insert_group(16, LENT(p10)), 6);
    refused("6, update", update(16, LENT(p10), 0, none, 0), 6);
    refused("6, delete", delete(16, LENT(p10)), 6);
    refused("7, a version above", view(0, LENT(p10_16), sizeof output), 7);
    refused("7, a version above, as XML", view_xml(0, LENT(p10_16), sizeof output), 7);
    refused("8", insert_group(0, LENT(p10)), 8);
}

/* 9: a full partition. Another label's insert is done, and after a delete one more of the first label's. */
static void test_full(void)
{
    uint8_t path[] = {0, 0, 0};
    start();
    for (path[0] = 1; path[0] <= 32; path[0]++) {
        done("one of 32", insert_group(0, LENT(path)), 0);
    }
    keep();
    refused("the 33rd", insert_group(0, LENT(path)), 9);
    done("another label's", insert_group(16, LENT(p10_16)), 0);
    done("a delete", delete(0, LENT(p10)), 1);
    done("the 33rd again", insert_group(0, LENT(path)), 0);
}

/* The smallest measure prints so. */
static void test_measure(void)
{
    static const uint8_t smallest[] = {0, 0, 0, 0x80};
    static const char seen[] = "VIEW\t0\t1\n1\t10\t0\tP\tM\t-2147483648\n";
    start();
    done("insert the smallest measure", insert(0, LENT(p10), DOSSIER_KIND_MEASURE, LENT(smallest)), 0);
    done("view it", view(0, none, 0, sizeof output), sizeof seen - 1);
    check("its listing", memcmp(output, seen, sizeof seen - 1) == 0 && is_untouched_from(sizeof seen - 1));
}

/* The paths of the worked examples of grades. */
static const uint8_t g1[] = {1, 0, 0};
static const uint8_t g2[] = {2, 0, 0};
static const uint8_t g3[] = {3, 0, 0};
static const uint8_t g4[] = {4, 0, 0};
static const uint8_t g5[] = {5, 0, 0};
static const uint8_t g6[] = {6, 0, 0};
static const uint8_t g7[] = {7, 0, 16};
static const uint8_t g8[] = {8, 0, 0};
static const uint8_t g8_9[] = {8, 0, 0, 9, 0, 16};
static const uint8_t g99[] = {99, 0, 0};

/* Inserts a measure. */
static void insert_measure(const char *name, uint32_t subject, const uint8_t *path, size_t length, int32_t number)
{
    uint8_t bytes[DOSSIER_MEASURE_BYTES];
    size_t put = dossier_put_measure(bytes, number);
    done(name, insert(subject, path, length, DOSSIER_KIND_MEASURE, bytes, put), 0);
}

/* The store of the worked examples of grades: 6:0 is a group, 8:0 is removed, 10:0 is a text. */
static void make_graded(void)
{
    start();
    insert_measure("1:0", 0, LENT(g1), 1000);
    insert_measure("2:0", 0, LENT(g2), 1025);
    insert_measure("3:0", 0, LENT(g3), 990);
    insert_measure("4:0", 0, LENT(g4), INT32_MIN);
    insert_measure("5:0", 0, LENT(g5), INT32_MAX);
    insert_measure("7:16", 16, LENT(g7), 5);
    done("6:0", insert_group(0, LENT(g6)), 0);
    done("8:0", insert_group(0, LENT(g8)), 0);
    insert_measure("8:0/9:16", 16, LENT(g8_9), 6);
    done("8:0 again", delete(0, LENT(g8)), 1);
    done("10:0", insert(0, LENT(p10), DOSSIER_KIND_TEXT, (const uint8_t *)"SLEEVE", 6), 0);
    keep();
}

/* The worked examples of grades that are done: the step is rounded down and may need more than 32 bits. */
static void test_grade(void)
{
    make_graded();
    graded("from 1000 to 1025 in 4", grade(0, LENT(g1), LENT(g2), 4), 6, 1);
    graded("from 1000 to 990 in 3", grade(0, LENT(g1), LENT(g3), 3), -4, 2);
    graded("one path twice", grade(0, LENT(g1), LENT(g1), 64), 0, 0);
    graded("from the smallest to the largest", grade(0, LENT(g4), LENT(g5), 1), 4294967295, 0);
    graded("from the largest to the smallest", grade(0, LENT(g5), LENT(g4), 1), -4294967295, 0);
    graded("from the largest to the smallest in 64", grade(0, LENT(g5), LENT(g4), 64), -67108864, 1);
    graded("of two labels", grade(16, LENT(g1), LENT(g7), 2), -498, 1);
    graded("below a removed element", grade(16, LENT(g8_9), LENT(g1), 7), 142, 0);
}

/* The worked examples of grades that are refused. 11: n counts on all its bits, and is tested before what is in view. */
static void test_grade_refused(void)
{
    static const uint32_t no_numbers[] = {0, 65, 255, 256, 257, 320, 4294967295u};
    static const uint8_t name_0[] = {0, 0, 0};
    static const uint8_t label_40[] = {1, 0, 40};
    make_graded();
    for (size_t at = 0; at < sizeof no_numbers / sizeof *no_numbers; at++) {
        not_graded("11", grade(0, LENT(g1), LENT(g2), no_numbers[at]), DOSSIER_REFUSED_SIZES);
        not_graded("11 before 7", grade(0, LENT(g1), LENT(g99), no_numbers[at]), DOSSIER_REFUSED_SIZES);
        not_graded("11 before 12", grade(0, none, 0, LENT(g6), no_numbers[at]), DOSSIER_REFUSED_SIZES);
    }
    not_graded("2", grade(40, LENT(g1), LENT(g2), 4), DOSSIER_REFUSED_SUBJECT);
    not_graded("4, the base", grade(0, LENT(name_0), LENT(g1), 4), DOSSIER_REFUSED_PATH);
    not_graded("4, the top, before 11", grade(0, LENT(g1), LENT(label_40), 0), DOSSIER_REFUSED_PATH);
    not_graded("7, the top", grade(0, LENT(g1), LENT(g99), 2), DOSSIER_REFUSED_ABSENT);
    not_graded("7, the base", grade(0, LENT(g99), LENT(g1), 2), DOSSIER_REFUSED_ABSENT);
    not_graded("7, a group and what is not there", grade(0, LENT(g6), LENT(g99), 2), DOSSIER_REFUSED_ABSENT);
    not_graded("7, the root and what is not there", grade(0, none, 0, LENT(g99), 2), DOSSIER_REFUSED_ABSENT);
    not_graded("7, what 0 does not see", grade(0, LENT(g1), LENT(g7), 2), DOSSIER_REFUSED_ABSENT);
    not_graded("7, what 0 sees no more", grade(0, LENT(g8), LENT(g1), 2), DOSSIER_REFUSED_ABSENT);
    not_graded("12, a group", grade(0, LENT(g1), LENT(g6), 2), DOSSIER_REFUSED_NO_MEASURE);
    not_graded("12, a text", grade(0, LENT(g1), LENT(p10), 2), DOSSIER_REFUSED_NO_MEASURE);
    not_graded("12, the root", grade(0, none, 0, LENT(g1), 2), DOSSIER_REFUSED_NO_MEASURE);
    not_graded("12, the root twice", grade(0, none, 0, none, 0, 2), DOSSIER_REFUSED_NO_MEASURE);
    not_graded("12, a removed element", grade(16, LENT(g8), LENT(g1), 2), DOSSIER_REFUSED_NO_MEASURE);
}

/* Buffers that are only read may overlap: the names of 1:0 and 2:0 in the store, with a zero behind each, are their paths. */
static void test_grade_overlap(void)
{
    make_graded();
    graded("paths inside the store", grade(0, store + 5, 3, store + 45, 3, 4), 6, 1);
    graded("one path inside the store", grade(0, store + 5, 3, store + 5, 3, 4), 0, 0);
}

/* A start tag of label 16, an end tag, a group with contents, and the start tag of the measure 3. */
#define OPEN(name, kind) "<e" name " label=\"16\" preserve=\"PRESENT\" kind=\"" kind "\">"
#define CLOSE(name) "</e" name ">"
#define GROUP(name, inside) OPEN(name, "G") inside CLOSE(name)
#define MEASURE OPEN("3", "M")

/* Sixteen & characters. */
#define FOUR_AMPS "&amp;&amp;&amp;&amp;"
#define AMPS FOUR_AMPS FOUR_AMPS FOUR_AMPS FOUR_AMPS

/* A group 50 of a label with groups inside it of these names, up to the last or down to it, as a text. */
static const char *sent_groups(int label, int first, int last)
{
    static char text[4096];
    int step = first <= last ? 1 : -1;
    int length = snprintf(text, sizeof text, "<e50 label=\"%d\" preserve=\"PRESENT\" kind=\"G\">", label);
    for (int name = first; name != last + step; name += step) {
        length += snprintf(text + length, sizeof text - (size_t)length,
                           "<e%d label=\"%d\" preserve=\"PRESENT\" kind=\"G\"></e%d>", name, label, name);
    }
    snprintf(text + length, sizeof text - (size_t)length, "</e50>");
    return text;
}

/* A view as XML is what it must be. */
static void sees_xml(const char *name, uint32_t subject, const uint8_t *path, size_t length, const char *xml)
{
    done(name, view_xml(subject, path, length, sizeof output), strlen(xml));
    check(name, memcmp(output, xml, strlen(xml)) == 0);
    memset(output, FILL, sizeof output);
}

/* The worked examples of XML intake, each on the store that the last one left. */
static void test_intake(void)
{
    static const uint8_t p10_20_2[] = {10, 0, 0, 20, 0, 16, 2, 0, 16};
    static const uint8_t p11[] = {11, 0, 0};
    static const uint8_t six[] = {1, 0, 0, 2, 0, 0, 3, 0, 0, 4, 0, 0, 5, 0, 0, 6, 0, 0};
    start();
    done("insert 10:0", insert_group(0, LENT(p10)), 0);
    done("a style", insert_xml(16, LENT(p10), GROUP("20", MEASURE "-150" CLOSE("3") OPEN("2", "T") "a &lt; b" CLOSE("2"))), 3);
    done("16 escapes", insert_xml(16, none, 0, OPEN("1", "T") AMPS CLOSE("1")), 1);
    done("the smallest measure", insert_xml(16, none, 0, MEASURE "-2147483648" CLOSE("3")), 1);
    done("six steps", insert_xml(16, LENT(p10_20_2), GROUP("9", GROUP("9", GROUP("9", "")))), 3);
    keep();
    refused("8", insert_xml(16, LENT(p10), GROUP("20", "")), DOSSIER_REFUSED_LIVE);
    refused("13, seven steps", insert_xml(16, LENT(p10_20_2), GROUP("9", GROUP("9", GROUP("9", GROUP("9", ""))))), 13);
    refused("13, a parent of six steps", insert_xml(16, LENT(six), GROUP("4", "")), DOSSIER_REFUSED_FORM);
    refused("7", insert_xml(16, LENT(p11), GROUP("4", "")), DOSSIER_REFUSED_ABSENT);
    refused("14 before 7", insert_xml(15, LENT(p11), GROUP("4", "")), DOSSIER_REFUSED_NOT_OWN);
    refused("7, what 0 does not see", insert_xml(0, LENT(p10_20), "<e4 label=\"0\" preserve=\"PRESENT\" kind=\"G\"></e4>"), 7);
    refused("9, 8 and 32", insert_xml(16, none, 0, sent_groups(16, 1, 31)), DOSSIER_REFUSED_FULL);
    sees_xml("the style reads back", 16, LENT(p10_20),
             XML("16", GROUP("20", OPEN("2", "T") "a &lt; b" GROUP("9", GROUP("9", GROUP("9", ""))) CLOSE("2")
                                       MEASURE "-150" CLOSE("3"))));
    done("32 elements", insert_xml(17, none, 0, sent_groups(17, 31, 1)), 32);
    keep();
    refused("9, 32 and 1", insert_xml(17, none, 0, "<e51 label=\"17\" preserve=\"PRESENT\" kind=\"G\"></e51>"), 9);
    done("a delete takes all 32", delete(17, (const uint8_t[]){50, 0, 17}, 3), 32);
}

/* 13: what is not in form. 14: a label that is not the subject's, and what is removed. */
static void test_intake_text(void)
{
    static const char *const not_in_form[] = {
        "", "<", GROUP("4", "") "\n", " " GROUP("4", ""), GROUP("4", "x"), GROUP("4", GROUP("1", "") "x"),
        GROUP("4", "") GROUP("5", ""), GROUP("4", GROUP("1", "") GROUP("1", "")), GROUP("0", ""), GROUP("65536", ""),
        GROUP("03", ""), OPEN("4", "G"), OPEN("4", "G") CLOSE("5"), OPEN("4", "-") CLOSE("4"), MEASURE CLOSE("3"),
        MEASURE "-0" CLOSE("3"), MEASURE "2147483648" CLOSE("3"), OPEN("4", "T") CLOSE("4"), OPEN("4", "T") "a>b" CLOSE("4"),
        OPEN("4", "T") "&quot;" CLOSE("4"), OPEN("4", "T") AMPS "&amp;" CLOSE("4"), XML("16", GROUP("4", "")),
        "<e4 label=\"16\" preserve=\"PRESENT\" kind=\"G\"/>", "<e4  label=\"16\" preserve=\"PRESENT\" kind=\"G\"></e4>",
        "<e4 label='16' preserve=\"PRESENT\" kind=\"G\"></e4>", "<e4 preserve=\"PRESENT\" label=\"16\" kind=\"G\"></e4>",
        "<e4 label=\"016\" preserve=\"PRESENT\" kind=\"G\"></e4>", "<e4 label=\"32\" preserve=\"PRESENT\" kind=\"G\"></e4>",
        "<e4 label=\"16\" preserve=\"REMOVED\" kind=\"G\"></e4>", "<e4 label=\"16\" preserve=\"REMOVED\" kind=\"-\">x</e4>",
        "<e4 label=\"0\" preserve=\"PRESENT\" kind=\"G\"></e4> ",
    };
    static const char *const not_own[] = {
        "<e4 label=\"0\" preserve=\"PRESENT\" kind=\"G\"></e4>", "<e4 label=\"16\" preserve=\"REMOVED\" kind=\"-\"></e4>",
        GROUP("3", GROUP("1", "") "<e1 label=\"17\" preserve=\"PRESENT\" kind=\"G\"></e1>"),
        GROUP("3", "<e1 label=\"16\" preserve=\"REMOVED\" kind=\"-\">" GROUP("2", "") "</e1>"),
    };
    start();
    done("insert 10:0", insert_group(0, LENT(p10)), 0);
    keep();
    for (size_t at = 0; at < sizeof not_in_form / sizeof *not_in_form; at++) {
        refused(not_in_form[at], insert_xml(16, LENT(p10), not_in_form[at]), DOSSIER_REFUSED_FORM);
    }
    for (size_t at = 0; at < sizeof not_own / sizeof *not_own; at++) {
        refused(not_own[at], insert_xml(16, LENT(p9), not_own[at]), DOSSIER_REFUSED_NOT_OWN);
    }
}

/* Versions under one name: the highest level is on top, and of one level the lowest compartments. */
static void test_order(void)
{
    static const uint8_t labels[] = {0, 8, 9, 16, 24, 1};
    static const uint8_t p9_31[] = {9, 0, 31};
    uint8_t path[] = {10, 0, 0};
    start();
    for (size_t at = 0; at < sizeof labels; at++) {
        path[2] = labels[at];
        done("a version", insert_group(labels[at], LENT(path)), 0);
    }
    done("insert 9:31", insert_group(31, LENT(p9_31)), 0);
    sees("the highest level is on top", 31,
         "VIEW\t31\t7\n1\t9\t31\tP\tG\t-\n1\t10\t24\tP\tG\t-\n1\t10\t16\tP\tG\t-\n1\t10\t8\tP\tG\t-\n"
         "1\t10\t9\tP\tG\t-\n1\t10\t0\tP\tG\t-\n1\t10\t1\tP\tG\t-\n");
}

/* Puts a text behind the elements of a partition. */
static void put(size_t label, const uint8_t *path, size_t length)
{
    uint8_t *partition = store + label * DOSSIER_PARTITION_BYTES;
    uint8_t *slot = partition + 4 + 40 * partition[0]++;
    slot[0] = (uint8_t)(length / 3);
    for (size_t at = 0; at < length / 3; at++) {
        memcpy(slot + 1 + 2 * at, path + 3 * at, 2);
        slot[13 + at] = path[3 * at + 2];
    }
    memcpy(slot + 19, "\2\2ab", 4);
}

/* A migration of the store answers a number and a mask. */
static void migrated(const char *name, size_t length, uint32_t number, uint32_t mask)
{
    struct dossier_migration migration = dossier_migrate(store, length);
    check(name, migration.number == number && migration.mask == mask);
}

/* A migration of the store answers a number and a mask and leaves the store that was kept. */
static void not_migrated(const char *name, size_t length, uint32_t number, uint32_t mask)
{
    migrated(name, length, number, mask);
    check(name, memcmp(store, kept, sizeof store) == 0);
}

/* The worked example of the migration: partition 9 is in the order of before, partition 5 is broken. */
static void test_migration(void)
{
    static const uint8_t p10_8[] = {10, 0, 8}, p10_9[] = {10, 0, 9}, p11[] = {11, 0, 0};
    static const uint8_t p10_1[] = {10, 0, 0, 1, 0, 9}, p10_8_1[] = {10, 0, 8, 1, 0, 9}, p10_9_1[] = {10, 0, 9, 1, 0, 9};
    const uint8_t *nine = kept + 9 * DOSSIER_PARTITION_BYTES;
    start();
    put(0, LENT(p10)), put(0, LENT(p11)), put(8, LENT(p10_8));
    put(9, LENT(p10_8_1)), put(9, LENT(p10_9)), put(9, LENT(p10_9_1)), put(9, LENT(p10_1));
    store[5 * DOSSIER_PARTITION_BYTES + 2] = 1;
    keep();
    memset(store + 9 * DOSSIER_PARTITION_BYTES, 0, DOSSIER_PARTITION_BYTES);
    put(9, LENT(p10_1)), put(9, LENT(p10_8_1)), put(9, LENT(p10_9)), put(9, LENT(p10_9_1));
    check("the order of before is another", memcmp(store + 9 * DOSSIER_PARTITION_BYTES, nine, DOSSIER_PARTITION_BYTES) != 0);
    check("9 is refused before", view(9, none, 0, sizeof output).number == DOSSIER_REFUSED_NOT_WELL_FORMED);
    done("8 is served before", view(8, none, 0, sizeof output), 51);
    migrated("the migration", DOSSIER_STORE_BYTES, DOSSIER_DONE, 1u << 5);
    check("its order", memcmp(store, kept, sizeof store) == 0);
    done("9 is served", view(9, none, 0, sizeof output), 104);
    check("5 is refused", view(5, none, 0, sizeof output).number == DOSSIER_REFUSED_NOT_WELL_FORMED);
    not_migrated("a second migration", DOSSIER_STORE_BYTES, DOSSIER_DONE, 544);
    not_migrated("a shorter store", DOSSIER_STORE_BYTES - 1, DOSSIER_REFUSED_STORE_LENGTH, 0);
    not_migrated("a longer store", DOSSIER_STORE_BYTES + 1, DOSSIER_REFUSED_STORE_LENGTH, 0);
    not_migrated("a store of no bytes", 0, DOSSIER_REFUSED_STORE_LENGTH, 0);
    start();
    keep();
    not_migrated("an empty store", DOSSIER_STORE_BYTES, DOSSIER_DONE, 0);
}

/* Reads a store file of tests. */
static void read_store(const char *name, uint8_t *to)
{
    FILE *file = fopen(name, "rb");
    check(name, file != NULL && fread(to, 1, DOSSIER_STORE_BYTES, file) == DOSSIER_STORE_BYTES && fgetc(file) == EOF);
    if (file != NULL) {
        fclose(file);
    }
}

/* How many subjects are answered this number for a view of all. */
static int subjects_answered(uint32_t number)
{
    static uint8_t all[DOSSIER_LISTING_BYTES_MAX];
    int count = 0;
    for (uint32_t subject = 0; subject < 32; subject++) {
        count += dossier_view(store, DOSSIER_STORE_BYTES, subject, none, 0, all, sizeof all).number == number;
    }
    return count;
}

/* A store file that was written before the path order changed: what the reference in tools makes of it is kept. Its partitions 9,
 * 16, 24 and 31 hold versions of one name at two levels: the sixteen subjects from 16 on dominate one of them, and 9, 11, 13, 15. */
static void test_store_file(void)
{
    const uint32_t moved = 1u << 9 | 1u << 16 | 1u << 24 | 1u << 31;
    start();
    keep();
    read_store("tests/before-order.store", store);
    read_store("tests/after-order.store", kept);
    check("twenty are refused by 3", subjects_answered(DOSSIER_REFUSED_NOT_WELL_FORMED) == 20);
    check("the others are served", subjects_answered(DOSSIER_DONE) == 12);
    migrated("the store file of before", DOSSIER_STORE_BYTES, DOSSIER_DONE, 0);
    check("the migrated store file", memcmp(store, kept, sizeof store) == 0);
    check("all are served", subjects_answered(DOSSIER_DONE) == 32);
    not_migrated("the store file once more", DOSSIER_STORE_BYTES, DOSSIER_DONE, moved);
}

int main(void)
{
    test_answer();
    test_example();
    test_again();
    test_xml();
    test_update();
    test_counts();
    test_groups();
    test_groups_room();
    test_store_length();
    test_subject();
    test_not_well_formed();
    test_path();
    test_value();
    test_place();
    test_full();
    test_measure();
    test_grade();
    test_grade_refused();
    test_grade_overlap();
    test_intake();
    test_intake_text();
    test_order();
    test_migration();
    test_store_file();
    return ended();
}
