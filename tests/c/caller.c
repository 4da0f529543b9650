/* Calls the linked checker from C. The whole verdict: one answer, the bytes behind it, a buffer that is too short, and an empty file.
 * The two questions: every field of the answers, of each kind, and what lies behind them. */
#include <stdio.h>
#include <string.h>

#include "mergecheck.h"

#define NOTHING MERGECHECK_NOTHING
#define LENGTH_REFUSED 16385
#define BEHIND 0xA5A5A5A5u

#define TABLES                                                                                    \
    "arities=0,1,1\nstates=4\nfinal=1\ntrans=5\nt=0,0\nt=2,0,1\nt=1,0,2\nt=1,2,3\nt=2,3,1\n"      \
    "badstates=3\nbadfinal=2\nbadtrans=3\nu=0,0\nu=1,0,1\nu=2,1,2\n"
#define RULE "l=2,x0\nr=2,1,1,x0\n"

static const char K1[] = "budget=1000\n" TABLES "rules=1\n" RULE "merge=0,1,2,0\n";
static const char K2[] = "budget=1000\n" TABLES "rules=1\n" RULE "merge=0,1,2,3\n";
static const char K3[] = "budget=1000\n" TABLES "rules=1\n" RULE "merge=0,0,0,0\n";
static const char K7[] = "budget=2\n" TABLES "rules=1\n" RULE "merge=0,1,2,0\n";
static const char K11[] = "budget=1000\n" TABLES "rules=1\nl=0\nr=2,0\nmerge=0,1,2,0\n";
/* K5's merging, with K10's rule as a second one. */
static const char unsuitable_critical[] = "budget=1000\n" TABLES "rules=2\n" RULE "l=1,x0\nr=x0\nmerge=0,1,2,2\n";
static uint8_t too_long[LENGTH_REFUSED];

/* The checker fills arrays of numbers of 32 bits. */
_Static_assert(sizeof(struct mergecheck_shared) == 4 * sizeof(uint32_t), "four numbers");
_Static_assert(sizeof(struct mergecheck_closed) == 9 * sizeof(uint32_t), "nine numbers");

static int failures = 0;

static void expect_of(const char *name, int holds, const char *what) {
    if (!holds) {
        printf("not so: %s%s\n", name, what);
        failures++;
    }
}

static void expect(int holds, const char *what) { expect_of("", holds, what); }

static void whole_verdict(void) {
    static const char answer[] = "verdict=accepted\nrefusal=-\nline=-\nrule=-\nx=-\nclass=-\nbad=-\nexamined=3\n";
    uint8_t out[200];
    memset(out, '#', sizeof out);
    uint64_t got = mergecheck((const uint8_t *)K1, sizeof K1 - 1, out, sizeof out);
    expect(mergecheck_refusal(got) == 0, "the example is not refused");
    expect(mergecheck_length(got) == sizeof answer - 1, "the answer's length");
    expect(memcmp(out, answer, sizeof answer - 1) == 0, "the answer's bytes");
    for (size_t i = sizeof answer - 1; i < sizeof out; i++) expect(out[i] == '#', "a byte behind the answer stays");
    memset(out, '#', sizeof out);
    got = mergecheck((const uint8_t *)K1, sizeof K1 - 1, out, MERGECHECK_BUFFER - 1);
    expect(mergecheck_refusal(got) == 1 && mergecheck_length(got) == 0, "a short buffer is refused by 1");
    for (size_t i = 0; i < sizeof out; i++) expect(out[i] == '#', "a short buffer stays");
    got = mergecheck((const uint8_t *)"", 0, out, sizeof out);
    expect(mergecheck_refusal(got) == 3, "an empty file is refused by 3");
}

static void sharing(const char *name, const void *file, size_t length, uint32_t kind, struct mergecheck_shared wanted) {
    struct { struct mergecheck_shared answer; uint32_t behind; } got;
    memset(&got, 0xA5, sizeof got);
    expect_of(name, mergecheck_sharing((const uint8_t *)file, length, &got.answer) == kind, ", sharing: the kind");
    expect_of(name, got.answer.refusal == wanted.refusal, ", sharing: the refusal");
    expect_of(name, got.answer.line == wanted.line, ", sharing: the line");
    expect_of(name, got.answer.final_class == wanted.final_class, ", sharing: the class");
    expect_of(name, got.answer.bad_state == wanted.bad_state, ", sharing: the state of B");
    expect_of(name, got.behind == BEHIND, ", sharing: what lies behind the answer stays");
}

static void closure(const char *name, const void *file, size_t length, uint32_t kind, struct mergecheck_closed wanted) {
    struct { struct mergecheck_closed answer; uint32_t behind; } got;
    memset(&got, 0xA5, sizeof got);
    expect_of(name, mergecheck_closure((const uint8_t *)file, length, &got.answer) == kind, ", closure: the kind");
    expect_of(name, got.answer.refusal == wanted.refusal, ", closure: the refusal");
    expect_of(name, got.answer.line == wanted.line, ", closure: the line");
    expect_of(name, got.answer.rule == wanted.rule, ", closure: the rule");
    for (int i = 0; i < 4; i++) expect_of(name, got.answer.x[i] == wanted.x[i], ", closure: the classes of the variables");
    expect_of(name, got.answer.missing_class == wanted.missing_class, ", closure: the class");
    expect_of(name, got.answer.examined == wanted.examined, ", closure: the count");
    expect_of(name, got.behind == BEHIND, ", closure: what lies behind the answer stays");
}

static struct mergecheck_shared shared(uint32_t final_class, uint32_t bad_state) {
    struct mergecheck_shared answer = {0, 0, final_class, bad_state};
    return answer;
}

static struct mergecheck_shared sharing_refused(uint32_t refusal, uint32_t line) {
    struct mergecheck_shared answer = {refusal, line, NOTHING, NOTHING};
    return answer;
}

/* A critical pair of a rule with one variable, or with none where x0 is NOTHING. */
static struct mergecheck_closed critical(uint32_t rule, uint32_t x0, uint32_t missing_class, uint32_t examined) {
    struct mergecheck_closed answer = {0, 0, rule, {x0, NOTHING, NOTHING, NOTHING}, missing_class, examined};
    return answer;
}

static struct mergecheck_closed no_pair(uint32_t examined) { return critical(NOTHING, NOTHING, NOTHING, examined); }

static struct mergecheck_closed closure_refused(uint32_t refusal, uint32_t line) {
    struct mergecheck_closed answer = no_pair(0);
    answer.refusal = refusal;
    answer.line = line;
    return answer;
}

static void two_questions(void) {
    const struct mergecheck_shared none = shared(NOTHING, NOTHING);
    sharing("K1", K1, sizeof K1 - 1, MERGECHECK_NONE_SHARED, none);
    closure("K1", K1, sizeof K1 - 1, MERGECHECK_CLOSED, no_pair(3));
    sharing("K2", K2, sizeof K2 - 1, MERGECHECK_NONE_SHARED, none);
    closure("K2", K2, sizeof K2 - 1, MERGECHECK_CRITICAL, critical(0, 3, 1, 4));
    sharing("K3", K3, sizeof K3 - 1, MERGECHECK_SHARED, shared(0, 2));
    closure("K3", K3, sizeof K3 - 1, MERGECHECK_CLOSED, no_pair(1));
    sharing("K7", K7, sizeof K7 - 1, MERGECHECK_NONE_SHARED, none);
    closure("K7", K7, sizeof K7 - 1, MERGECHECK_STOPPED, no_pair(2));
    sharing("K11", K11, sizeof K11 - 1, MERGECHECK_NONE_SHARED, none);
    closure("K11", K11, sizeof K11 - 1, MERGECHECK_CRITICAL, critical(0, NOTHING, 0, 1));
    const char *name = "unsuitable and critical";
    sharing(name, unsuitable_critical, sizeof unsuitable_critical - 1, MERGECHECK_SHARED, shared(1, 2));
    closure(name, unsuitable_critical, sizeof unsuitable_critical - 1, MERGECHECK_CRITICAL, critical(1, 0, 2, 4));
    sharing("an empty file", "", 0, MERGECHECK_SHARING_MALFORMED, sharing_refused(3, 1));
    closure("an empty file", "", 0, MERGECHECK_CLOSURE_MALFORMED, closure_refused(3, 1));
    sharing("a file too long", too_long, sizeof too_long, MERGECHECK_SHARING_MALFORMED, sharing_refused(2, 0));
    closure("a file too long", too_long, sizeof too_long, MERGECHECK_CLOSURE_MALFORMED, closure_refused(2, 0));
}

int main(void) {
    whole_verdict();
    two_questions();
    printf("%d failures\n", failures);
    return failures != 0;
}
