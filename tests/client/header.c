/*
 * header.c - include/rigcandle.h itself, compiled as C and as C++: that it can be included twice and beside std::vector and std::count,
 * that the four names link from both languages, and that every function takes its number out of the bits that docs/INTERFACE.md gives.
 */
#include "rigcandle.h"
#include "rigcandle.h"

#include <stdio.h>

#ifdef __cplusplus
#include <algorithm>
#include <vector>
using namespace std;
#define LIBRARY(name) ::name
#else
#define LIBRARY(name) name
#endif

static int wrong;

static void same(const char *what, unsigned got, unsigned wanted)
{
    if (got != wanted) {
        fprintf(stderr, "header: %s: wanted %x, got %x\n", what, wanted, got);
        wrong = 1;
    }
}

/* All other bits are set, so that a field that is cut too wide shows. */
static void check_accepted(void)
{
    const uint64_t answer = UINT64_C(0xFEDCBA9876543200);
    same("number", rigcandle_refusal(answer), 0);
    same("place", rigcandle_place(answer), 0);
    same("second place", rigcandle_second_place(answer), 0);
    same("groups, G", rigcandle_groups_g(answer), 0x32);
    same("count, G", rigcandle_count_g(answer), 0x32);
    same("count, p", rigcandle_count_p(answer), 0x54);
    same("count, total", rigcandle_count_total(answer), 0x9876);
    same("vector, group", rigcandle_vector_group(answer), 0x32);
    same("marks, pass", rigcandle_marks_pass(answer), 0x5432);
    same("marks, fail", rigcandle_marks_fail(answer), 0x9876);
    same("marks, unsure", rigcandle_marks_unsure(answer), 0xDCBA);
}

static void check_refused(void)
{
    const uint64_t answer = UINT64_C(0xFEDCBA987654320A);
    same("refused, number", rigcandle_refusal(answer), RIGCANDLE_CROSSING);
    same("refused, place", rigcandle_place(answer), 0x5432);
    same("refused, second place", rigcandle_second_place(answer), 0x9876);
    same("refused, groups, G", rigcandle_groups_g(answer), 0);
    same("refused, count, G", rigcandle_count_g(answer), 0);
    same("refused, count, p", rigcandle_count_p(answer), 0);
    same("refused, count, total", rigcandle_count_total(answer), 0);
    same("refused, vector, group", rigcandle_vector_group(answer), 0);
    same("refused, marks, pass", rigcandle_marks_pass(answer), 0);
    same("refused, marks, fail", rigcandle_marks_fail(answer), 0);
    same("refused, marks, unsure", rigcandle_marks_unsure(answer), 0);
}

/* The release rule on the answers of a marks call: pass, fail, unsure. */
static uint64_t marked(uint64_t pass, uint64_t fail, uint64_t unsure)
{
    return pass << 8 | fail << 24 | unsure << 40;
}

static void check_release(void)
{
    same("all pass", (unsigned)rigcandle_all_pass(marked(3, 0, 0), 3), 1);
    same("one fails", (unsigned)rigcandle_all_pass(marked(2, 1, 0), 3), 0);
    same("one is unsure", (unsigned)rigcandle_all_pass(marked(2, 0, 1), 3), 0);
    same("fewer nets than the board's, one fails", (unsigned)rigcandle_all_pass(marked(2, 1, 0), 2), 0);
    same("fewer nets than the board's, one is unsure", (unsigned)rigcandle_all_pass(marked(2, 0, 1), 2), 0);
    same("more nets than the board's", (unsigned)rigcandle_all_pass(marked(3, 0, 0), 4), 0);
    same("no nets", (unsigned)rigcandle_all_pass(0, 0), 0);
    same("a refusal", (unsigned)rigcandle_all_pass(RIGCANDLE_CAPTURE_LENGTH, 0), 0);
    same("a refusal with a place", (unsigned)rigcandle_all_pass(marked(3, 0, 0) | RIGCANDLE_CROSSING, 3), 0);
    same("256 pass", (unsigned)rigcandle_all_pass(marked(256, 0, 0), 256), 1);
}

static void check_file(void)
{
    uint8_t file[16] = {0};
    file[10] = 0x23;
    file[11] = 0x01;
    file[12] = 0xFF;
    file[13] = 0x02;
    same("C", rigcandle_file_cells(file), 0x123);
    same("N", rigcandle_file_nets(file), 0x2FF);
    same("R", rigcandle_file_row(file), 0x25);
}

static void check_empty_file(void)
{
    same("groups", rigcandle_refusal(LIBRARY(groups)(NULL, 0, NULL, 0)), RIGCANDLE_FILE_LENGTH);
    same("count", rigcandle_refusal(LIBRARY(count)(NULL, 0)), RIGCANDLE_FILE_LENGTH);
    same("vector", rigcandle_refusal(LIBRARY(vector)(NULL, 0, 0, NULL, 0)), RIGCANDLE_FILE_LENGTH);
    same("marks", rigcandle_refusal(LIBRARY(marks)(NULL, 0, NULL, 0, NULL, 0)), RIGCANDLE_FILE_LENGTH);
}

int main(void)
{
    check_accepted();
    check_refused();
    check_release();
    check_file();
    check_empty_file();
    return wrong;
}
