/* The library called from C: the desk policy judged, a blank field found, a trace with a joiner judged, the guard pair summed and
   merged, a trace refused where a typing is wanted, and a policy spelt; then all of it once more in lent memory. What a function
   returns is looked at before anything that it wrote. It is C11 and C++17. */
#include <inttypes.h>
#include <stdio.h>
#include <stdlib.h>

#include "arbac.h"

/* A file's bytes; one byte more than a text may have, so that a longer file is refused as too long. */
struct text {
    uint8_t bytes[ARBAC_TEXT + 1];
    size_t length;
};

static struct text read_text(const char *path) {
    struct text text;
    FILE *file = fopen(path, "rb");
    if (file == NULL) {
        perror(path);
        exit(1);
    }
    text.length = fread(text.bytes, 1, sizeof text.bytes, file);
    fclose(file);
    return text;
}

/* Every array here has room and every memory is long enough, so this is never called. */
static void stop(const char *what) {
    fprintf(stderr, "%s: no room or no memory\n", what);
    exit(1);
}

static const char *part_name(uint64_t part) {
    switch (part) {
    case ARBAC_PART_HOLDINGS:
        return "holdings";
    case ARBAC_PART_ASSIGN:
        return "assign";
    case ARBAC_PART_REVOKE:
        return "revoke";
    default:
        return "goal";
    }
}

/* The line that is wrong, as a part of the text that it stands in. */
static void print_bad_line(uint64_t text, const uint64_t *place, const struct text *policy, const struct text *evidence) {
    const uint8_t *bytes = NULL;
    switch (text) {
    case ARBAC_IN_POLICY:
        bytes = policy->bytes;
        break;
    case ARBAC_IN_EVIDENCE:
        bytes = evidence->bytes;
        break;
    default:
        stop("bad line");
    }
    printf("bad line \"%.*s\"\n", (int)place[1], (const char *)bytes + place[0]);
}

/* What `check` prints for two texts, the values of the answer, and the bad line where the answer speaks of one. Here and below
   `memory` is null where none is lent, and otherwise has room for a merge. */
static void check_texts(const char *policy_path, const char *evidence_path, uint64_t *memory) {
    struct text policy = read_text(policy_path), evidence = read_text(evidence_path);
    uint8_t line[ARBAC_LINE];
    size_t length;
    if (memory == NULL) {
        length = arbac_check_line(policy.bytes, policy.length, evidence.bytes, evidence.length, line, sizeof line);
    } else {
        length = arbac_check_line_in(policy.bytes, policy.length, evidence.bytes, evidence.length, line, sizeof line,
                                     memory, ARBAC_MEMORY);
    }
    if (length == 0) {
        stop("line");
    }
    fwrite(line, 1, length, stdout);

    uint64_t values[ARBAC_CHECK], place[ARBAC_BAD_LINE], answer, text;
    if (memory == NULL) {
        answer = arbac_check(policy.bytes, policy.length, evidence.bytes, evidence.length, values, ARBAC_CHECK);
    } else {
        answer = arbac_check_in(policy.bytes, policy.length, evidence.bytes, evidence.length, values, ARBAC_CHECK,
                                memory, ARBAC_MEMORY);
    }
    switch (answer) {
    case ARBAC_SAFE:
        printf("safe: %" PRIu64 " roles, %" PRIu64 " assign rules, %" PRIu64 " revoke rules, %" PRIu64 " goals, %" PRIu64 " names pinned\n",
               values[0], values[1], values[2], values[3], values[4]);
        break;
    case ARBAC_ATTACKED:
        printf("attacked: %" PRIu64 " steps give user %" PRIu64 " all roles of goal %" PRIu64 "\n", values[0], values[1], values[2]);
        break;
    case ARBAC_UNPROVED:
        printf("unproved: %s %" PRIu64 "\n", part_name(values[0]), values[1]);
        break;
    case ARBAC_BROKEN:
        printf("broken: step %" PRIu64 "\n", values[0]);
        break;
    case ARBAC_SHORT:
        printf("short: %" PRIu64 " steps\n", values[0]);
        break;
    case ARBAC_NO_ROOM:
    case ARBAC_NO_MEMORY:
        stop("check");
        break;
    case ARBAC_POLICY_TOO_LONG:
    case ARBAC_EVIDENCE_TOO_LONG:
        printf("refused %" PRIu64 ": too long\n", answer);
        break;
    case ARBAC_EVIDENCE_ABOVE_LIMIT:
        printf("refused %" PRIu64 " at line %" PRIu64 ": a user name too many\n", answer, values[0]);
        break;
    default:
        printf("refused %" PRIu64 " at line %" PRIu64 "\n", answer, values[0]);
        if (memory == NULL) {
            text = arbac_bad_line(policy.bytes, policy.length, evidence.bytes, evidence.length, place, ARBAC_BAD_LINE);
        } else {
            text = arbac_bad_line_in(policy.bytes, policy.length, evidence.bytes, evidence.length, place, ARBAC_BAD_LINE,
                                     memory, ARBAC_MEMORY);
        }
        print_bad_line(text, place, &policy, &evidence);
    }
}

/* The sum of two typings over a policy, or the refusal with its bad line. */
static void print_sum(const struct text *policy, const struct text *first, const struct text *second, uint64_t *memory) {
    uint8_t out[ARBAC_TEXT];
    uint64_t values[ARBAC_SUM], place[ARBAC_BAD_LINE], answer, text;
    const struct text *typing = first;
    if (memory == NULL) {
        answer = arbac_sum(policy->bytes, policy->length, first->bytes, first->length, second->bytes, second->length,
                           out, sizeof out, values, ARBAC_SUM);
    } else {
        answer = arbac_sum_in(policy->bytes, policy->length, first->bytes, first->length, second->bytes, second->length,
                              out, sizeof out, values, ARBAC_SUM, memory, ARBAC_MEMORY);
    }
    switch (answer) {
    case ARBAC_DONE:
        printf("sum: %" PRIu64 " names pinned, %" PRIu64 " bytes\n", values[0], values[1]);
        fwrite(out, 1, values[1], stdout);
        break;
    case ARBAC_NO_ROOM:
    case ARBAC_NO_MEMORY:
        stop("sum");
        break;
    case ARBAC_SUM_TOO_LONG:
    case ARBAC_POLICY_TOO_LONG:
    case ARBAC_EVIDENCE_TOO_LONG:
        printf("no sum: %" PRIu64 "\n", answer);
        break;
    default:
        printf("no sum: %" PRIu64 ", text %" PRIu64 " at line %" PRIu64 "\n", answer, values[0], values[1]);
        if (values[0] == ARBAC_SUM_SECOND) {
            typing = second;
        }
        if (memory == NULL) {
            text = arbac_bad_typing_line(policy->bytes, policy->length, typing->bytes, typing->length, place, ARBAC_BAD_LINE);
        } else {
            text = arbac_bad_typing_line_in(policy->bytes, policy->length, typing->bytes, typing->length, place, ARBAC_BAD_LINE,
                                            memory, ARBAC_MEMORY);
        }
        print_bad_line(text, place, policy, typing);
    }
}

/* The merge of two policies with a typing each, or why there is none. */
static void print_merge(const struct text *policy_1, const struct text *typing_1, const struct text *policy_2, const struct text *typing_2,
                        uint64_t *memory) {
    uint8_t out[ARBAC_TEXT];
    uint64_t values[ARBAC_MERGE], answer;
    if (memory == NULL) {
        answer = arbac_merge(policy_1->bytes, policy_1->length, typing_1->bytes, typing_1->length, policy_2->bytes,
                             policy_2->length, typing_2->bytes, typing_2->length, out, sizeof out, values, ARBAC_MERGE);
    } else {
        answer = arbac_merge_in(policy_1->bytes, policy_1->length, typing_1->bytes, typing_1->length, policy_2->bytes,
                                policy_2->length, typing_2->bytes, typing_2->length, out, sizeof out, values, ARBAC_MERGE,
                                memory, ARBAC_MERGE_MEMORY);
    }
    switch (answer) {
    case ARBAC_DONE:
        printf("merged: %" PRIu64 " names pinned, %" PRIu64 " bytes\n", values[4], values[5]);
        fwrite(out, 1, values[5], stdout);
        break;
    case ARBAC_UNPROVED:
        printf("not merged: judging %" PRIu64 ", %s %" PRIu64 "\n", values[0], part_name(values[1]), values[2]);
        break;
    case ARBAC_NO_ROOM:
    case ARBAC_NO_MEMORY:
        stop("merge");
        break;
    default:
        printf("not merged: %" PRIu64 ", text %" PRIu64 " at line %" PRIu64 "\n", answer, values[0], values[1]);
    }
}

/* The policy as every text of it is spelt, into a buffer of the length given. */
static void print_spelling(const struct text *policy, size_t room, uint64_t *memory) {
    static uint8_t out[ARBAC_TEXT];
    uint64_t values[ARBAC_SPELL];
    uint64_t answer;
    if (memory == NULL) {
        answer = arbac_spell(policy->bytes, policy->length, out, room, values, ARBAC_SPELL);
    } else {
        answer = arbac_spell_in(policy->bytes, policy->length, out, room, values, ARBAC_SPELL, memory, ARBAC_MEMORY);
    }
    switch (answer) {
    case ARBAC_DONE:
        printf("spelt: %" PRIu64 " bytes\n", values[0]);
        fwrite(out, 1, values[0], stdout);
        break;
    case ARBAC_NO_ROOM:
    case ARBAC_NO_MEMORY:
        stop("spell");
        break;
    default:
        printf("not spelt: %" PRIu64 " at line %" PRIu64 "\n", answer, values[0]);
    }
}

/* An array of zeros that is one number too short, and then memory that is one word too short: the array is as it was, and what is
   returned is no verdict. */
static void check_without_room(const char *policy_path, const char *evidence_path, uint64_t *memory) {
    struct text policy = read_text(policy_path), evidence = read_text(evidence_path);
    uint64_t values[ARBAC_CHECK] = {0, 0, 0, 0, 0};
    uint64_t answer = arbac_check(policy.bytes, policy.length, evidence.bytes, evidence.length, values, ARBAC_CHECK - 1);
    printf("%s\n", answer == ARBAC_NO_ROOM ? "no room, no verdict" : "a verdict");
    answer = arbac_check_in(policy.bytes, policy.length, evidence.bytes, evidence.length, values, ARBAC_CHECK,
                            memory, ARBAC_MEMORY - 1);
    printf("%s\n", answer == ARBAC_NO_MEMORY ? "no memory, no verdict" : "a verdict");
}

static void use_all(uint64_t *memory) {
    check_texts("examples/desk/policy.txt", "examples/desk/evidence.txt", memory);
    check_texts("examples/blank_field/policy.txt", "examples/blank_field/evidence.txt", memory);

    /* who joins is counted after the two users of the policy */
    check_texts("examples/open_desk/policy.txt", "examples/open_desk/evidence.txt", memory);

    /* each policy of the guard pair is safe alone, and the two together are not: typing one fails on revoke rule 1 of policy two */
    struct text policy_1 = read_text("crates/cases/data/guard_a.policy"), typing_1 = read_text("crates/cases/data/guard_a.typing");
    struct text policy_2 = read_text("crates/cases/data/guard_b.policy"), typing_2 = read_text("crates/cases/data/guard_b.typing");
    print_sum(&policy_1, &typing_1, &typing_2, memory);
    print_merge(&policy_1, &typing_1, &policy_2, &typing_2, memory);

    /* a trace is no typing */
    struct text loose = read_text("examples/loose_desk/policy.txt"), trace = read_text("examples/loose_desk/evidence.txt");
    struct text typing = read_text("examples/desk/evidence.txt");
    print_sum(&loose, &typing, &trace, memory);

    /* a policy whose sets are not in role order is spelt in as many bytes, and not in one fewer */
    struct text shuffled = read_text("examples/shuffled/policy.txt");
    print_spelling(&shuffled, shuffled.length, memory);
    print_spelling(&shuffled, shuffled.length - 1, memory);
}

int main(void) {
    static uint64_t memory[ARBAC_MERGE_MEMORY];
    use_all(NULL);
    printf("in lent memory\n");
    use_all(memory);
    check_without_room("examples/desk/policy.txt", "examples/desk/evidence.txt", memory);
    return 0;
}
