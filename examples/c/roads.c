/* Feeds roads, holds the version that they make, changes one, and asks and compares both. It prints roads.expected. */
#include <misteluk.h>
#include <stdio.h>
#include <stdlib.h>
#include <string.h>
static const misteluk_view every = {0, UINT64_MAX, MISTELUK_ANY_KIND};

/* Ends the program where a call was refused, and says why. */
static void must(uint32_t code)
{
    char text[MISTELUK_TEXT_BYTES] = "";
    if (code != MISTELUK_OK)
        misteluk_code_text(code, text, sizeof text), fprintf(stderr, "refused: %s\n", text), exit((int)code);
}

static void road(misteluk_batch *batch, const char *from, const char *to, int64_t miles, uint64_t day)
{
    must(misteluk_batch_insert(batch, "road", 4, from, strlen(from), to, strlen(to), miles, day));
}

/* Applies a batch, holds the version that it leaves, and says how many roads it takes to get from the first town to the third. */
static void apply(misteluk_desk *desk, misteluk_batch *batch, misteluk_version *version, misteluk_hold *hold)
{
    misteluk_counts counts;
    uint32_t levels[3];
    must(misteluk_desk_apply(desk, batch, &counts)), must(misteluk_desk_hold(desk, version, hold));
    must(misteluk_version_levels(version, &every, 0, levels, 3));
    printf("version %d: %d new, %d changed; jena %d\n", (int)counts.version, (int)counts.inserted, (int)counts.updated, (int)levels[2]);
}

/* Which roads changed from one version that is held to a later one, and their miles. There are at most four. */
static void compare(misteluk_desk *desk, const misteluk_hold *earlier, const misteluk_hold *later)
{
    misteluk_diff diff = {0};
    uint8_t states[4];
    uint32_t ends[3][4], source = 0;
    int64_t miles[2][4];
    uint64_t times[4][4], count;
    misteluk_diff_columns into = {sizeof into, states, 4, ends[0], 4, ends[1], 4, ends[2], 4, miles[0], 4, times[0], 4, times[1], 4,
        miles[1], 4, times[2], 4, times[3], 4};
    must(misteluk_desk_diff(desk, earlier, later, &diff)), must(misteluk_diff_edges(&diff, &every, &source, &into, &count));
    for (uint64_t at = 0; at < count; at++)
        printf("%d to %d: %d miles, then %d\n", (int)ends[1][at], (int)ends[2][at], (int)miles[0][at], (int)miles[1][at]);
    misteluk_diff_free(&diff);
}

int main(void)
{
    misteluk_desk desk = {0};
    misteluk_batch batch = {0};
    misteluk_version held = {0}, last = {0}; misteluk_hold hold, again;
    uint64_t freed;
    must(misteluk_desk_new(1, 64, &desk)), must(misteluk_batch_new(&batch));
    road(&batch, "ulm", "kiel", 12, 1), road(&batch, "kiel", "jena", 7, 1), apply(&desk, &batch, &held, &hold);
    road(&batch, "ulm", "kiel", 20, 3), apply(&desk, &batch, &last, &again), compare(&desk, &hold, &again);
    must(misteluk_desk_release(&desk, &hold)), must(misteluk_desk_collect(&desk, &freed));
    printf("freed after its release: %d\n", (int)freed);
    misteluk_version_free(&held), misteluk_version_free(&last), misteluk_batch_free(&batch), misteluk_desk_free(&desk);
}
