/* dossier, the labelled dossier store of the project Yaztobel: its calls for C and C++. docs/GUIDE.md is where to begin.
 *
 * Link with the archive libdossier_c.a. `tools/install PREFIX` installs it, this file and dossier.pc, by which pkg-config finds
 * both: cc program.c $(pkg-config --cflags --libs dossier). In the project's folder, without an installation, `tools/build
 * --archive dossier_c` builds target/staticlib/libdossier_c.a. The archive needs memcpy, memmove and memset of the C library and
 * nothing else. It keeps nothing between calls, allocates nothing and starts no thread. The helpers at the end of this file, which
 * put steps and measures into bytes and read them back, are compiled with the program that uses them. This file needs C99 or
 * C++11.
 *
 * THE STORE is 41,088 bytes that the caller owns and lends for one call at a time: 32 partitions of 1,284 bytes, one for each
 * label. An empty store is all zero; no call is needed to make one, and a store may be kept or moved by copying its bytes. Of
 * any other bytes, and of any length, a call answers a number and does nothing undefined.
 *
 * A LABEL is a number 0 to 31: level x 8 + compartments. The level is 0 open, 1 trade, 2 house or 3 sealed; the compartments
 * are a sum of 1 sizing, 2 fabric and 4 cost. A label dominates another if its level is at least the other's and its
 * compartments include the other's.
 *
 * A SUBJECT is the label under which a call is made. Pass the number as it is: 287 or 4294967295 is no label and is refused
 * by 2. Cut down to eight bits before the call it would be another subject's.
 *
 * A PATH is three bytes a step: the name (1 to 65535), lowest byte first, then the label. It has one to six steps, each label
 * dominating the one before; the last label is the element's. The path of no bytes is the root: a view takes it, and XML intake
 * as the parent; a grade refuses it by 12 and every other call by 4.
 *
 * PATH ORDER is that of slots in a partition, of lines in a listing and of elements in XML. It goes step by step: by name from
 * low to high, then by level from high to low, then by compartments from low to high; a prefix comes before its extensions. So of
 * versions under one name the one of the highest level is on top. Before, it went by name and then by the label's number: a store
 * written then is migrated once, by dossier_migrate.
 *
 * A VALUE is a kind and bytes. Kind 0, a group: no bytes. Kind 1, a measure: four bytes, a signed number of hundredths of a
 * millimetre, lowest byte first. Kind 2, a text: 1 to 16 bytes, each 32 to 126. Pass the kind as it is, too: 256 is refused by 5.
 *
 * An element is LIVE from its insert until it is deleted. A path in view that is not live is REMOVED: something live that the
 * subject may see still stands below it.
 *
 * WHAT A HOST MUST NOT DO. The promises are proved of the library and hold for a caller that keeps to this:
 *
 *   - A pointer reaches as many bytes as its length says. It is not NULL, not even where the length is 0: lend the address of
 *     any byte then, as dossier_no_bytes(); nothing is read or written there.
 *   - A buffer that is written (the store of an insert, an update, a delete, an XML intake or a migration; the output of a view)
 *     does not overlap another buffer of the same call. Buffers that are only read may overlap: a grade may be given one path
 *     twice.
 *   - Until a call returns, no other thread, signal handler or device writes a buffer that it was lent, or reads one that it
 *     writes. So two calls on one store run at the same time only if both only read it: views and grades. The library has no
 *     lock of its own.
 *   - The functions are declared as below, with nothing narrower.
 *
 * gcc and clang warn where an answer is dropped, and where NULL is passed (gcc with -Wall).
 *
 * An XML intake takes less than 6 KB of stack on x86-64, a view less than 7 KB, a view as XML less than 8 KB and the other calls,
 * a grade and the migration too, less than 1 KB, as measured on a full store. No call blocks.
 */
#ifndef DOSSIER_H
#define DOSSIER_H

#include <stddef.h>
#include <stdint.h>

#if SIZE_MAX != UINT64_MAX
#error "the dossier calls take lengths of 64 bits"
#endif

/* The version, as numbers and as a text. docs/DECISIONS.md says what changes it. */
#define DOSSIER_VERSION_MAJOR 1
#define DOSSIER_VERSION_MINOR 0
#define DOSSIER_VERSION_PATCH 0
#define DOSSIER_VERSION "1.0.0"

/* What stands before a function where the compiler has it: none of its pointers is NULL; its answer must be looked at. */
#ifdef __GNUC__
#define DOSSIER_NONNULL __attribute__((nonnull))
#define DOSSIER_WARN_UNUSED __attribute__((warn_unused_result))
#else
#define DOSSIER_NONNULL
#define DOSSIER_WARN_UNUSED
#endif

#ifdef __cplusplus
#ifdef __GNUC__
/* The name dossier_grade is a struct's and a function's, and the helpers have casts of C: no warning about these. */
#pragma GCC diagnostic push
#pragma GCC diagnostic ignored "-Wshadow"
#pragma GCC diagnostic ignored "-Wold-style-cast"
#endif
extern "C" {
#endif

/* How many bytes a store has. */
#define DOSSIER_STORE_BYTES 41088

/* How many bytes a partition has; the one of label n starts at n times this. */
#define DOSSIER_PARTITION_BYTES 1284

/* How many bytes a step of a path has, and a path of six steps; a measure; the longest text. */
#define DOSSIER_STEP_BYTES 3
#define DOSSIER_PATH_BYTES_MAX 18
#define DOSSIER_MEASURE_BYTES 4
#define DOSSIER_TEXT_BYTES_MAX 16

/* No listing has more bytes: at most 1,024 lines of live elements, 5,120 of removed ones and the first. An output of this
 * length is never refused by 10. The longest listing known has 114,861 bytes. */
#define DOSSIER_LISTING_BYTES_MAX 119821

/* No view as XML has more bytes: at most 1,024 live elements, 5,120 removed ones and the dossier tag. An output of this length
 * is never refused by 10. The longest XML known has 414,816 bytes. */
#define DOSSIER_XML_BYTES_MAX 426016

/* The level of a label. */
enum {
    DOSSIER_LEVEL_OPEN = 0,
    DOSSIER_LEVEL_TRADE = 1,
    DOSSIER_LEVEL_HOUSE = 2,
    DOSSIER_LEVEL_SEALED = 3
};

/* The compartments of a label, to be added up. */
enum {
    DOSSIER_COMPARTMENT_SIZING = 1,
    DOSSIER_COMPARTMENT_FABRIC = 2,
    DOSSIER_COMPARTMENT_COST = 4
};

/* The label of a level and a sum of compartments. */
#define DOSSIER_LABEL(level, compartments) ((level) * 8 + (compartments))

/* The kind of a value. */
enum {
    DOSSIER_KIND_GROUP = 0,
    DOSSIER_KIND_MEASURE = 1,
    DOSSIER_KIND_TEXT = 2
};

/* The number of an answer: 0, or the first cause that applies, in the order of the numbers but for 11, which a grade tests right
 * after 4, and 13 and 14, which an XML intake tests there. After a refusal the count is 0, or the step and the remainder are, and
 * the store and the output hold the bytes that they held before. */
enum {
    /* The call is done. */
    DOSSIER_DONE = 0,
    /* The store is not 41,088 bytes long. */
    DOSSIER_REFUSED_STORE_LENGTH = 1,
    /* The subject is no label: over 31. */
    DOSSIER_REFUSED_SUBJECT = 2,
    /* A partition that the subject dominates is not well formed. Others are not read. One that was written before the path order
     * changed and holds versions of one name at two levels is not well formed until it is migrated. */
    DOSSIER_REFUSED_NOT_WELL_FORMED = 3,
    /* The path's length is no multiple of 3, it has over six steps, or none in a call that is no view, no grade and no XML
     * intake; or a name is 0, a label over 31, or a label does not dominate the one before. Grade: either path is so. XML intake:
     * the parent's is. */
    DOSSIER_REFUSED_PATH = 4,
    /* Insert, update: the kind is over 2, or the value's length or bytes are not those of its kind. */
    DOSSIER_REFUSED_VALUE = 5,
    /* Insert, update, delete: the path's last label is not the subject's. */
    DOSSIER_REFUSED_OTHER_LABEL = 6,
    /* View: the path is not in view. Insert: a step behind the longest prefix of the path that is in view does not bear the
     * subject's label. XML intake: the parent is not in view. Update, delete: the element is not live. Grade: either path is not
     * in view. */
    DOSSIER_REFUSED_ABSENT = 7,
    /* Insert: the element is live. XML intake: the top element is. */
    DOSSIER_REFUSED_LIVE = 8,
    /* The subject's partition would hold more than 32 elements. Insert: with the element and its missing groups. XML intake: with
     * the elements of the text. */
    DOSSIER_REFUSED_FULL = 9,
    /* View: the output is shorter than the listing or the XML. */
    DOSSIER_REFUSED_OUTPUT_SHORT = 10,
    /* Grade: the number of sizes is not 1 to 64. Tested right after 4. */
    DOSSIER_REFUSED_SIZES = 11,
    /* Grade: both paths are in view, and either is no live measure's: a group's, a text's, a removed element's or the root's. */
    DOSSIER_REFUSED_NO_MEASURE = 12,
    /* XML intake: the text is not in form. Tested right after 4. */
    DOSSIER_REFUSED_FORM = 13,
    /* XML intake: a label of the text is not the subject's, or an element is REMOVED. Tested right after 13. */
    DOSSIER_REFUSED_NOT_OWN = 14
};

/* What every call but a grade and the migration answers, returned by value: its number, and its count (what it counts stands at
 * each call). */
struct dossier_answer {
    uint32_t number;
    uint64_t count;
};

/* What a grade answers, returned by value: its number, the step from one size to the next and what is left over, both in
 * hundredths of a millimetre. The step may need more than 32 bits. The function has the same name: write struct dossier_grade. */
struct dossier_grade {
    uint32_t number;
    int64_t step;
    uint32_t remainder;
};

/* What the migration answers, returned by value: its number, and the mask of the partitions that it left as they were since they
 * were not well formed in the order of before: bit n for the partition of label n. */
struct dossier_migration {
    uint32_t number;
    uint32_t mask;
};

/* Lists the path, unless it is empty, and everything in the subject's view below it, in path order, into the output.
 * Count: the bytes written. The bytes of the output behind them keep their contents. The store is only read.
 *
 * Fields are parted by one tab, and each line ends with byte 10; no byte 0 is written. The first line: VIEW, the subject, how
 * many lines follow. Each further line: the depth (steps of the whole path), the last step's name and label, P (live) or R
 * (removed), the kind (G, M, T, or - if removed), and the value: a measure in decimal, a text as it is, else -. */
DOSSIER_NONNULL DOSSIER_WARN_UNUSED
struct dossier_answer dossier_view(const uint8_t *store, size_t store_length, uint32_t subject, const uint8_t *path,
                                   size_t path_length, uint8_t *output, size_t output_length);

/* Writes what dossier_view lists, the same elements in the same order, as XML 1.0 into the output.
 * Count: the bytes written. The bytes of the output behind them keep their contents. The store is only read.
 *
 * The whole is <dossier subject="16">..</dossier>, with nothing before or behind it and no byte 0. An element is
 * <e20 label="16" preserve="PRESENT" kind="M">..</e20>: e with the last step's name, the label, PRESENT (live) or REMOVED, and
 * the kind (G, M, T, or - if removed). Inside stand its value and then the elements below it. The value is a measure in
 * decimal, or a text with &amp; for &, &lt; for < and &gt; for >; a group and a removed element have none. One space stands
 * before each attribute, and no other white space is added. The path's own element stands directly in the dossier tag: what is
 * above it is not written. */
DOSSIER_NONNULL DOSSIER_WARN_UNUSED
struct dossier_answer dossier_view_xml(const uint8_t *store, size_t store_length, uint32_t subject, const uint8_t *path,
                                       size_t path_length, uint8_t *output, size_t output_length);

/* Makes one live element with a value, and the missing groups above it. Count: how many groups were made. Only the subject's
 * partition is written.
 *
 * Where the parent is in view, be it removed, no group is missing and the count is 0. Else take the longest prefix of the path that
 * is in view; the root always is. Each longer prefix of the path, but for the path itself, is a missing group: it is made with kind
 * 0 and no value. Every step behind the longest prefix in view must bear the subject's label, else the number is 7. The groups and
 * the element are made all or none: where they have no room together, the number is 9. No other call makes missing groups. */
DOSSIER_NONNULL DOSSIER_WARN_UNUSED
struct dossier_answer dossier_insert(uint8_t *store, size_t store_length, uint32_t subject, const uint8_t *path,
                                     size_t path_length, uint32_t kind, const uint8_t *value, size_t value_length);

/* Replaces the value of a live element, its kind too, and keeps all else: the elements below it stay, whatever their label.
 * Count: 1, the element replaced. Only the subject's partition is written. */
DOSSIER_NONNULL DOSSIER_WARN_UNUSED
struct dossier_answer dossier_update(uint8_t *store, size_t store_length, uint32_t subject, const uint8_t *path,
                                     size_t path_length, uint32_t kind, const uint8_t *value, size_t value_length);

/* Deletes a live element and every live element below it of the same label; elements of other labels below it stay.
 * Count: how many elements were taken. Only the subject's partition is written. */
DOSSIER_NONNULL DOSSIER_WARN_UNUSED
struct dossier_answer dossier_delete(uint8_t *store, size_t store_length, uint32_t subject, const uint8_t *path,
                                     size_t path_length);

/* The even grade between two live measures that the subject sees, in n sizes: top - base = n x step + remainder, with a remainder
 * of 0 to n - 1. So the step is rounded down, also where top is smaller: from 1000 to 990 in 3 sizes it is -4, and 2 are left.
 * One path given twice has step 0 and remainder 0. The store is only read.
 *
 * Each cause is tested for both paths before the next one: where the base is a group and the top is not in view, the number is 7.
 * A measure that the subject may not see is refused as one that is not there. Pass n as it is: 257 is refused by 11. */
DOSSIER_NONNULL DOSSIER_WARN_UNUSED
struct dossier_grade dossier_grade(const uint8_t *store, size_t store_length, uint32_t subject, const uint8_t *base,
                                   size_t base_length, const uint8_t *top, size_t top_length, uint32_t n);

/* XML intake: takes in a style, sent as one XML element, and puts it below the parent with all that stands inside it, all
 * elements or none. The parent must be in view, be it removed; the root will do. Count: how many elements were made. Only the
 * subject's partition is written. What was taken in reads back: in the dossier tag of its view stands the text, siblings in path
 * order.
 *
 * The text is in form if it is byte for byte what dossier_view_xml writes of an element, without the dossier tag, but that
 * siblings may stand in any order. So nothing stands before or behind the element, no byte 10 either; one space stands before
 * each attribute and no other white space outside of values; there is no <e4/>, no comment or declaration and no other escape;
 * and no number has a plus or a leading zero or is -0. A value of kind T is 1 to 16 characters long, its escapes undone. No
 * two siblings are equal in name and label, and the steps of the parent's path and the nesting come to six at most together. An
 * element that is REMOVED, with kind - and no value, is in form.
 *
 * The causes are tested in this order: 1, 2, 3, 4 (the parent's path), 13 (the form), 14 (labels and marks), 7 (the parent), 8
 * (the top element) and 9 (all elements); 5 and 6 do not occur. So a text of any length is read to its end before one behind 13
 * is told.
 *
 * The time is linear in the length of the text where no element has more than 32 directly inside it. Where one has more, which
 * ends in a refusal anyway, what is inside it is gone through once more for each 512 of these: 1 MB of 22,000 siblings takes
 * less than two seconds. */
DOSSIER_NONNULL DOSSIER_WARN_UNUSED
struct dossier_answer dossier_insert_xml(uint8_t *store, size_t store_length, uint32_t subject, const uint8_t *parent,
                                         size_t parent_length, const uint8_t *text, size_t text_length);

/* The migration: brings a store that was written before into the path order of now. It is the owner's, not a subject's, and is run
 * once, before calls resume: until then a call of a subject that dominates a partition with versions in the order of before is
 * refused by 3. The order of before: step by step, by name and then by the label's number, both from low to high.
 *
 * Each partition is done by itself. One that is well formed in the order of before gets the same elements, with their values, in
 * the order of now. Each other keeps its bytes, and its bit in the mask is set. The number is 0; a store of another length is
 * refused by 1, with mask 0, and keeps its bytes.
 *
 * The mask is no list of broken partitions. A partition that stands in the order of now already, and holds versions of one name at
 * two levels, is not well formed in the order of before: it keeps its bytes, its bit is set, and it serves all calls. So a second
 * migration changes no byte; its mask has the bits of the first and those of the partitions that the first changed. A partition
 * without such versions has the same bytes in both orders. Only where nothing was written in the order of now does the mask name
 * just the broken partitions; a subject that dominates one of them is refused by 3 as before. */
DOSSIER_NONNULL DOSSIER_WARN_UNUSED
struct dossier_migration dossier_migrate(uint8_t *store, size_t store_length);

/* The words of an answer's number, the cause of a refusal: what stands behind "refused by 7: ". The text is never NULL and
 * lasts as long as the program. */
DOSSIER_WARN_UNUSED
static inline const char *dossier_refusal_text(uint32_t number)
{
    switch (number) {
    case DOSSIER_DONE:
        return "the call is done";
    case DOSSIER_REFUSED_STORE_LENGTH:
        return "the store is not 41,088 bytes long";
    case DOSSIER_REFUSED_SUBJECT:
        return "the subject is no label";
    case DOSSIER_REFUSED_NOT_WELL_FORMED:
        return "a partition that the subject dominates is not well formed";
    case DOSSIER_REFUSED_PATH:
        return "the path is not valid";
    case DOSSIER_REFUSED_VALUE:
        return "the value is not allowed";
    case DOSSIER_REFUSED_OTHER_LABEL:
        return "the path does not end in the subject's label";
    case DOSSIER_REFUSED_ABSENT:
        return "the path or its parent is not in view, or the element is not live";
    case DOSSIER_REFUSED_LIVE:
        return "the element is live already";
    case DOSSIER_REFUSED_FULL:
        return "the label's partition has no room";
    case DOSSIER_REFUSED_OUTPUT_SHORT:
        return "the output is too short for the view";
    case DOSSIER_REFUSED_SIZES:
        return "the number of sizes of a grade is not 1 to 64";
    case DOSSIER_REFUSED_NO_MEASURE:
        return "a path of the grade is in view and is no live measure's";
    case DOSSIER_REFUSED_FORM:
        return "the XML is not in form";
    case DOSSIER_REFUSED_NOT_OWN:
        return "an element of the XML bears another label than the subject's, or is marked REMOVED";
    default:
        return "no number of this version";
    }
}

/* The address to lend where there are no bytes: the root's path, a group's value. */
DOSSIER_WARN_UNUSED
static inline const uint8_t *dossier_no_bytes(void)
{
    static const uint8_t none[1] = {0};
    return none;
}

/* Puts a step of a path, three bytes, and returns 3: length += dossier_put_step(path + length, 10, 0) puts one more. Pass the
 * numbers as they are: a name over 65535 is put as 0 and a label over 255 as 255, which no valid path has, so that a call refuses
 * it by 4. */
DOSSIER_NONNULL
static inline size_t dossier_put_step(uint8_t *bytes, uint32_t name, uint32_t label)
{
    uint32_t fitting = name <= 65535 ? name : 0;
    bytes[0] = (uint8_t)fitting;
    bytes[1] = (uint8_t)(fitting >> 8);
    bytes[2] = (uint8_t)(label <= 255 ? label : 255);
    return DOSSIER_STEP_BYTES;
}

/* The name of a step, of its three bytes. */
DOSSIER_NONNULL DOSSIER_WARN_UNUSED
static inline uint32_t dossier_read_name(const uint8_t *step)
{
    return step[0] + step[1] * 256u;
}

/* The label of a step, of its three bytes. */
DOSSIER_NONNULL DOSSIER_WARN_UNUSED
static inline uint32_t dossier_read_label(const uint8_t *step)
{
    return step[2];
}

/* Puts a measure, four bytes, and returns 4. A number that does not fit 32 bits with a sign puts nothing and returns 0, the
 * length that no measure has, so that a call refuses it by 5. */
DOSSIER_NONNULL DOSSIER_WARN_UNUSED
static inline size_t dossier_put_measure(uint8_t *bytes, int64_t hundredths)
{
    uint32_t bits = (uint32_t)hundredths;
    if (hundredths < INT32_MIN || hundredths > INT32_MAX) {
        return 0;
    }
    bytes[0] = (uint8_t)bits;
    bytes[1] = (uint8_t)(bits >> 8);
    bytes[2] = (uint8_t)(bits >> 16);
    bytes[3] = (uint8_t)(bits >> 24);
    return DOSSIER_MEASURE_BYTES;
}

/* The measure of four bytes, in hundredths of a millimetre. */
DOSSIER_NONNULL DOSSIER_WARN_UNUSED
static inline int32_t dossier_read_measure(const uint8_t *bytes)
{
    int32_t highest = bytes[3] < 128 ? bytes[3] : bytes[3] - 256;
    return highest * 16777216 + bytes[2] * 65536 + bytes[1] * 256 + bytes[0];
}

#ifdef __cplusplus
}
#ifdef __GNUC__
#pragma GCC diagnostic pop
#endif
#endif

#endif
