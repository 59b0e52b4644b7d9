/* Measures the stack that the calls take, on the longest listing and the longest XML known: each label has 32 elements, each of
 * six steps, and those above it are removed wherever the label dominates another; each text is all & characters. XML intakes and
 * an insert that makes groups are measured with the partition of label 31 empty, the migration with one there in the order of
 * before. The last line is 'N passed, N failed'. */
#define _XOPEN_SOURCE 700
#include "check.h"
#include "dossier.h"

#include <pthread.h>
#include <stdlib.h>
#include <string.h>

/* The stack of a measured call, what it is filled with, and what the header says that a view, one as XML, an XML intake and
 * another call take. */
enum { STACK = 65536, FILL = 0xa5, VIEW_MOST = 7 * 1024, XML_MOST = 8 * 1024, INTAKE_MOST = 6 * 1024, OTHER_MOST = 1024 };

/* The bytes of the longest listing and of the longest XML known, the elements of each label, and the first name. */
enum { LONGEST = 114861, LONGEST_XML = 414816, EACH = 32, LABELS = 32, ABOVE = 5, FIRST_NAME = 10000 };

/* How many bytes a step has. */
enum { STEP = DOSSIER_STEP_BYTES };

/* How many elements stand beside each other in a text that is refused: more than the keys that are kept of one group. */
enum { GROUPED = 600 };

static uint8_t store[DOSSIER_STORE_BYTES];
static uint8_t output[DOSSIER_XML_BYTES_MAX];
static _Alignas(4096) uint8_t stack[STACK];

/* A path that is in the store, another one for a grade, and what the last call answered. */
static uint8_t path[STEP * (ABOVE + 1)];
static uint8_t other_path[STEP * (ABOVE + 1)];
static struct dossier_answer answer;

/* A text to be taken in, and its length. */
static char sent[524288];
static size_t sent_length;

/* Whether one label dominates another. */
static int dominates(int one, int other)
{
    return other / 8 <= one / 8 && ((one % 8) & (other % 8)) == other % 8;
}

/* The highest label that a label dominates beside itself, or -1. */
static int below(int label)
{
    for (int other = label - 1; other >= 0; other--) {
        if (dominates(label, other)) {
            return other;
        }
    }
    return -1;
}

/* Puts a step into the path, behind as many others; where it ends. */
static size_t put_step(size_t at, int name, int label)
{
    return STEP * at + dossier_put_step(path + STEP * at, (uint32_t)name, (uint32_t)label);
}

/* Inserts an element of the label with removed ones above it, where it dominates another label. */
static int insert_below(int label, int name)
{
    static const uint8_t text[] = {'&', '&', '&', '&', '&', '&', '&', '&', '&', '&', '&', '&', '&', '&', '&', '&'};
    int other = below(label);
    size_t above = other < 0 ? 0 : ABOVE;
    int done = 1;
    for (size_t at = 0; at < above; at++) {
        size_t end = put_step(at, name, other);
        answer = dossier_insert(store, sizeof store, (uint32_t)other, path, end, DOSSIER_KIND_GROUP, text, 0);
        done = done && answer.number == DOSSIER_DONE;
    }
    size_t end = put_step(above, name, label);
    answer = dossier_insert(store, sizeof store, (uint32_t)label, path, end, DOSSIER_KIND_TEXT, text, sizeof text);
    done = done && answer.number == DOSSIER_DONE;
    if (above > 0) {
        answer = dossier_delete(store, sizeof store, (uint32_t)other, path, STEP);
        done = done && answer.number == DOSSIER_DONE && answer.count == ABOVE;
    }
    return done;
}

/* Fills the store, from the highest label on, so that the lower ones still have room for what is removed again. */
static int fill(void)
{
    int done = 1, name = FIRST_NAME;
    for (int label = LABELS - 1; label >= 0; label--) {
        for (int at = 0; at < EACH; at++) {
            done = insert_below(label, name++) && done;
        }
    }
    return done;
}

/* The calls that are measured: none, for what a thread takes itself, a view of all, one as XML, an update, a delete, an insert,
 * a grade between two measures, one between two removed elements, which is refused, an insert of six steps, an XML intake of the
 * text, and the migration. */
static void *no_call(void *unused)
{
    return unused;
}

static void *call_view(void *unused)
{
    answer = dossier_view(store, sizeof store, 31, path, 0, output, sizeof output);
    return unused;
}

static void *call_view_xml(void *unused)
{
    answer = dossier_view_xml(store, sizeof store, 31, path, 0, output, sizeof output);
    return unused;
}

static void *call_update(void *unused)
{
    answer = dossier_update(store, sizeof store, 0, path, STEP, DOSSIER_KIND_GROUP, path, 0);
    return unused;
}

static void *call_delete(void *unused)
{
    answer = dossier_delete(store, sizeof store, 0, path, STEP);
    return unused;
}

static void *call_insert(void *unused)
{
    answer = dossier_insert(store, sizeof store, 0, path, STEP, DOSSIER_KIND_GROUP, path, 0);
    return unused;
}

static void *call_grade(void *unused)
{
    answer.number = dossier_grade(store, sizeof store, 31, path, sizeof path, other_path, sizeof other_path, 64).number;
    return unused;
}

static void *call_grade_removed(void *unused)
{
    answer.number = dossier_grade(store, sizeof store, 31, path, STEP, other_path, STEP, 64).number;
    return unused;
}

static void *call_insert_deep(void *unused)
{
    answer = dossier_insert(store, sizeof store, 31, path, sizeof path, DOSSIER_KIND_GROUP, path, 0);
    return unused;
}

static void *call_insert_xml(void *unused)
{
    answer = dossier_insert_xml(store, sizeof store, 31, path, 0, (const uint8_t *)sent, sent_length);
    return unused;
}

static void *call_migrate(void *unused)
{
    struct dossier_migration migration = dossier_migrate(store, sizeof store);
    answer.number = migration.number;
    answer.count = migration.mask;
    return unused;
}

/* Fills the partition of label 31 in the order of before: a group of six steps below each label, the name and the labels the same
 * up to the fifth. The last is the one that comes first now. */
static void fill_before(void)
{
    uint8_t *partition = store + 31 * DOSSIER_PARTITION_BYTES;
    memset(partition, 0, DOSSIER_PARTITION_BYTES);
    partition[0] = EACH;
    for (size_t at = 0; at < EACH; at++) {
        uint8_t *slot = partition + 4 + 40 * at;
        size_t steps = at + 1 < EACH ? ABOVE + 1 : ABOVE;
        slot[0] = (uint8_t)steps;
        for (size_t step = 0; step < steps; step++) {
            slot[1 + 2 * step] = 1;
        }
        slot[13 + ABOVE - 1] = (uint8_t)at;
        slot[13 + steps - 1] = 31;
    }
}

/* The label of the fifth step of an element of label 31. */
static int fifth_label(size_t at)
{
    return store[31 * DOSSIER_PARTITION_BYTES + 4 + 40 * at + 13 + ABOVE - 1];
}

/* Puts a tag behind the text: the start tag of a text of 16 & characters, with its value, or an end tag. */
static void put_tag(int is_start, int name)
{
    static const char value[] = "&amp;&amp;&amp;&amp;&amp;&amp;&amp;&amp;&amp;&amp;&amp;&amp;&amp;&amp;&amp;&amp;";
    char *end = sent + sent_length;
    size_t room = sizeof sent - sent_length;
    int length = is_start ? snprintf(end, room, "<e%d label=\"31\" preserve=\"PRESENT\" kind=\"T\">%s", name, value)
                          : snprintf(end, room, "</e%d>", name);
    sent_length += (size_t)length;
}

/* Makes a text of six steps: inside each of the first five elements stand so many, all but the last with nothing inside. */
static void make_text(int each)
{
    sent_length = 0;
    put_tag(1, FIRST_NAME);
    for (int depth = 0; depth < ABOVE; depth++) {
        for (int at = 1; at < each; at++) {
            put_tag(1, FIRST_NAME + at);
            put_tag(0, FIRST_NAME + at);
        }
        put_tag(1, FIRST_NAME);
    }
    for (int depth = 0; depth <= ABOVE; depth++) {
        put_tag(0, FIRST_NAME);
    }
}

/* Makes the element of label 31 with this name a measure and puts its path into the path. */
static int make_measure(int name)
{
    static const uint8_t smallest[] = {0, 0, 0, 0x80};
    for (size_t at = 0; at < ABOVE; at++) {
        put_step(at, name, below(31));
    }
    put_step(ABOVE, name, 31);
    answer = dossier_update(store, sizeof store, 31, path, sizeof path, DOSSIER_KIND_MEASURE, smallest, sizeof smallest);
    return answer.number == DOSSIER_DONE;
}

/* Two measures to grade between, the last and the first of label 31. */
static int make_measures(void)
{
    int done = make_measure(FIRST_NAME + EACH - 1);
    memcpy(other_path, path, sizeof path);
    return make_measure(FIRST_NAME) && done;
}

/* Empties the partition of label 31. */
static void clear_highest(void)
{
    memset(store + 31 * DOSSIER_PARTITION_BYTES, 0, DOSSIER_PARTITION_BYTES);
}

/* Runs a call on a filled stack of its own: how many bytes of the stack are no longer as they were. */
static size_t used(void *(*call)(void *))
{
    pthread_attr_t attributes;
    pthread_t thread;
    memset(stack, FILL, sizeof stack);
    if (pthread_attr_init(&attributes) != 0 || pthread_attr_setstack(&attributes, stack, sizeof stack) != 0
        || pthread_create(&thread, &attributes, call, NULL) != 0 || pthread_join(thread, NULL) != 0) {
        printf("a thread could not be run\n");
        exit(1);
    }
    size_t at = 0;
    while (at < sizeof stack && stack[at] == FILL) {
        at++;
    }
    return sizeof stack - at;
}

/* A call answers this number, and takes no more than so many bytes beside what a thread takes. */
static void measure(const char *name, void *(*call)(void *), uint32_t number, size_t base, size_t most)
{
    size_t bytes = used(call) - base;
    printf("%s: %zu bytes of stack\n", name, bytes);
    check(name, answer.number == number && bytes <= most);
}

int main(void)
{
    check("the store is filled", fill());
    size_t base = used(no_call);
    measure("view", call_view, DOSSIER_DONE, base, VIEW_MOST);
    check("the longest listing known", answer.count == LONGEST);
    measure("view as XML", call_view_xml, DOSSIER_DONE, base, XML_MOST);
    check("the longest XML known", answer.count == LONGEST_XML);
    put_step(0, FIRST_NAME + EACH * LABELS - 1, 0);
    measure("update", call_update, DOSSIER_DONE, base, OTHER_MOST);
    measure("delete", call_delete, DOSSIER_DONE, base, OTHER_MOST);
    measure("insert", call_insert, DOSSIER_DONE, base, OTHER_MOST);
    check("two measures are there", make_measures());
    measure("grade", call_grade, DOSSIER_DONE, base, OTHER_MOST);
    measure("grade, refused", call_grade_removed, DOSSIER_REFUSED_NO_MEASURE, base, OTHER_MOST);
    clear_highest();
    for (size_t at = 0; at <= ABOVE; at++) {
        put_step(at, FIRST_NAME, 31);
    }
    measure("insert, groups made", call_insert_deep, DOSSIER_DONE, base, OTHER_MOST);
    check("five groups are made", answer.count == ABOVE);
    clear_highest();
    make_text(GROUPED);
    measure("XML intake, refused", call_insert_xml, DOSSIER_REFUSED_FULL, base, INTAKE_MOST);
    make_text(EACH / (ABOVE + 1) + 1);
    measure("XML intake", call_insert_xml, DOSSIER_DONE, base, INTAKE_MOST);
    check("most of a partition is taken in", answer.count == 31);
    fill_before();
    measure("migration", call_migrate, DOSSIER_DONE, base, OTHER_MOST);
    check("the partition is migrated", answer.count == 0 && fifth_label(0) == 24 && fifth_label(7) == 31 && fifth_label(31) == 7);
    return ended();
}
