/* 0 deletes a style below which 16 has a measure: 16 still sees it, removed. Then a grade, a version above, and a refusal. */
#include <dossier.h>
#include <inttypes.h>
#include <stdio.h>
/* The store, empty at first, and room for any listing. */
static uint8_t store[DOSSIER_STORE_BYTES], output[DOSSIER_LISTING_BYTES_MAX];
/* Says in words why a call was refused, if it was. */
static void tell(uint32_t number) {
    if (number != DOSSIER_DONE) printf("refused by %" PRIu32 ": %s\n", number, dossier_refusal_text(number));
}
/* Prints what a subject sees. */
static void print_view(uint32_t subject) {
    struct dossier_answer answer = dossier_view(store, sizeof store, subject, dossier_no_bytes(), 0, output, sizeof output);
    tell(answer.number);
    fwrite(output, 1, answer.count, stdout);
}
/* Puts the path of an element below 10:0; its length. */
static size_t put_path(uint8_t *path, uint32_t name, uint32_t label) {
    return dossier_put_step(path, 10, 0) + dossier_put_step(path + DOSSIER_STEP_BYTES, name, label);
}
/* A subject inserts a measure of its own label below 10:0. */
static void insert_measure(uint32_t subject, uint32_t name, int64_t hundredths) {
    uint8_t path[DOSSIER_PATH_BYTES_MAX], value[DOSSIER_MEASURE_BYTES];
    size_t length = put_path(path, name, subject), put = dossier_put_measure(value, hundredths);
    tell(dossier_insert(store, sizeof store, subject, path, length, DOSSIER_KIND_MEASURE, value, put).number);
}
int main(void) {
    uint8_t base[DOSSIER_PATH_BYTES_MAX], top[DOSSIER_PATH_BYTES_MAX];
    size_t base_length = put_path(base, 20, 16), top_length = put_path(top, 21, 16), style = DOSSIER_STEP_BYTES;
    tell(dossier_insert(store, sizeof store, 0, base, style, DOSSIER_KIND_GROUP, dossier_no_bytes(), 0).number);
    insert_measure(16, 20, -150);
    tell(dossier_delete(store, sizeof store, 0, base, style).number);
    print_view(0), print_view(16);
    insert_measure(16, 21, 850);
    struct dossier_grade grade = dossier_grade(store, sizeof store, 16, base, base_length, top, top_length, 3);
    tell(grade.number);
    printf("step %" PRId64 ", remainder %" PRIu32 "\n", grade.step, grade.remainder);
    insert_measure(24, 20, -140), print_view(24);
    tell(dossier_delete(store, sizeof store, 0, base, style).number);
}
