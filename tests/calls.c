/* Makes every call of the header on circuits of document 01, and compares what comes back. Each line that
 * it prints is a check; the last one is 'N passed, M failed'. */
#include <stdio.h>
#include <string.h>
#include <thaksipho.h>

#define UNTOUCHED 0xA5
#define REFUSAL(number, place) ((uint64_t)(number) << 32 | (place))

static const uint8_t a[] = {0x01, 3, 0x10, 0, 0x10, 1, 0x10, 2, 0x40, 0, 1, 0x40,
                            1, 2, 0x11, 0, 0, 0x11, 1, 1, 0x11, 2, 2};
static const uint8_t b[] = {0x01, 3, 0x10, 0, 0x10, 1, 0x10, 2, 0x11, 0, 0, 0x11, 1, 1, 0x11, 2, 2};
static const uint8_t b_list[] = {0x60, 0, 1, 0x60, 1, 2};
static const uint8_t b_loop[] = {0x60, 0, 1, 0x60, 1, 2, 0x60, 2, 0};
static const uint8_t b_dynamic[] = {0x02, 1, 3, 0x10, 0, 0x11, 0, 0, 0x10,
                                    0, 0x11, 0, 1, 0x10, 0, 0x11, 0, 2};
static const uint8_t p6[] = {0x01, 1, 0x10, 0, 0x11, 0, 0};
static const uint8_t p6_dynamic[] = {0x02, 1, 1, 0x10, 0, 0x11, 0, 0};

static unsigned passed, failed;

static void check(const char *name, int holds)
{
    printf("%s: %s\n", holds ? "ok" : "FAILED", name);
    *(holds ? &passed : &failed) += 1;
}

/* Whether a buffer has these bytes at its start and is untouched behind them. */
static int holds_only(const uint8_t *out, size_t room, const uint8_t *bytes, size_t length)
{
    if (length > 0 && memcmp(out, bytes, length) != 0)
        return 0;
    for (size_t at = length; at < room; at++)
        if (out[at] != UNTOUCHED)
            return 0;
    return 1;
}

static void check_words(void)
{
    uint64_t word = REFUSAL(13, 2);
    check("a refusal is taken apart", THAKSIPHO_REFUSED(word) && THAKSIPHO_NUMBER(word) == 13 &&
                                          THAKSIPHO_PLACE(word) == 2);
    check("a value is no refusal", !THAKSIPHO_REFUSED(0xFFFFFFFFu));
}

static void check_circuits(void)
{
    uint8_t out[64];
    check("read tells wires and instructions", thaksipho_read(a, sizeof a) == 8 * 256 + 3);
    check("read refuses an input that is cut", thaksipho_read(a, 3) == REFUSAL(2, 2));
    check("read refuses nothing at all", thaksipho_read(NULL, 0) == REFUSAL(1, 0));

    memset(out, UNTOUCHED, sizeof out);
    check("rewrite gives the same bytes", thaksipho_rewrite(a, sizeof a, out, sizeof out) == sizeof a &&
                                              holds_only(out, sizeof out, a, sizeof a));
    check("rewrite tells the room that it needs",
          thaksipho_rewrite(a, sizeof a, NULL, 0) == REFUSAL(31, sizeof a));
}

static void check_compiling(void)
{
    uint8_t out[64];
    memset(out, UNTOUCHED, sizeof out);
    check("compile refuses a loop and writes nothing",
          thaksipho_compile(b, sizeof b, b_loop, sizeof b_loop, out, sizeof out) == REFUSAL(23, 2) &&
              holds_only(out, sizeof out, NULL, 0));
    check("compile refuses room one byte short",
          thaksipho_compile(b, sizeof b, b_list, sizeof b_list, out, sizeof b) ==
                  REFUSAL(31, sizeof b + 1) &&
              holds_only(out, sizeof out, NULL, 0));
    check("compile writes the dynamic circuit",
          thaksipho_compile(b, sizeof b, b_list, sizeof b_list, out, sizeof out) == sizeof b_dynamic &&
              holds_only(out, sizeof out, b_dynamic, sizeof b_dynamic));
    memset(out, UNTOUCHED, sizeof out);
    check("compile takes a list without pairs",
          thaksipho_compile(p6, sizeof p6, NULL, 0, out, sizeof out) == sizeof p6_dynamic &&
              holds_only(out, sizeof out, p6_dynamic, sizeof p6_dynamic));
}

/* In A only 0 may lend, to 2; in B every wire to every other. */
static void check_tables(void)
{
    uint8_t of_a[THAKSIPHO_TABLE_LENGTH], of_b[THAKSIPHO_TABLE_LENGTH], after[THAKSIPHO_TABLE_LENGTH];
    uint8_t list[THAKSIPHO_LIST_LENGTH];
    check("start writes a table", thaksipho_start(a, sizeof a, of_a, sizeof of_a) == sizeof of_a &&
                                      thaksipho_start(b, sizeof b, of_b, sizeof of_b) == sizeof of_b);
    check("may says who may lend to whom", thaksipho_may(of_a, sizeof of_a, 0, 2) == 1 &&
                                               thaksipho_may(of_a, sizeof of_a, 2, 0) == 0);
    check("count counts", thaksipho_count(of_a, sizeof of_a) == 1 &&
                              thaksipho_count(of_b, sizeof of_b) == 6);
    check("score counts what is left", thaksipho_score(of_a, sizeof of_a, 0, 2) == 0 &&
                                           thaksipho_score(of_b, sizeof of_b, 0, 1) == 2);
    check("score refuses a pair that is not yes",
          thaksipho_score(of_a, sizeof of_a, 2, 0) == REFUSAL(23, 0));
    check("offer writes the table after it",
          thaksipho_offer(of_b, sizeof of_b, 0, 1, after, sizeof after) == sizeof after &&
              thaksipho_may(after, sizeof after, 1, 0) == 0 &&
              thaksipho_may(after, sizeof after, 1, 2) == 1);
    check("offer refuses a lender that lends",
          thaksipho_offer(after, sizeof after, 0, 2, of_a, sizeof of_a) == REFUSAL(21, 0));
    memset(list, UNTOUCHED, sizeof list);
    check("greedy writes its list",
          thaksipho_greedy(of_b, sizeof of_b, list, sizeof list) == 8 * 256 + 2 &&
              holds_only(list, sizeof list, b_list, sizeof b_list));
    check("a table of no bytes has a wrong width",
          thaksipho_count(NULL, 0) == REFUSAL(27, 0) &&
              thaksipho_greedy(NULL, 0, list, sizeof list) == REFUSAL(27, 0));
}

int main(void)
{
    check_words();
    check_circuits();
    check_compiling();
    check_tables();
    printf("%u passed, %u failed\n", passed, failed);
    return failed != 0;
}
