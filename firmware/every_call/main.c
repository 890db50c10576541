/*
 * Every call of the header, from the firmware's side, each answer checked: the trials, a file for each subject, in the
 * order in which firmware comes to them. firmware/check builds them as C99 and as C++.
 */
#include "every_call.h"

#include <stdio.h>

static unsigned checks;
static unsigned failures;

void expect(int holds, const char *words, const char *file, int line)
{
    checks++;
    if (!holds) {
        failures++;
        fprintf(stderr, "%s:%d: %s does not hold\n", file, line, words);
    }
}

int main(void)
{
    try_numbers();
    try_frames();
    try_book();
    try_sheets();
    try_sheet_refusals();
    try_routes();
    try_merges();
    try_state();
    try_follow();
    try_poll();
    try_poll_refusals();
    try_election();
    try_clock();
    printf("every_call: %u of %u checks hold\n", checks - failures, checks);
    return failures == 0 ? 0 : 1;
}
