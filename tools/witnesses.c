/* Judges all small histories by the rules as docs/FORMATS.md tells them, and looks whether `rambo check --why` says the same.
 *
 *     witnesses RAMBO KEYS OPERATIONS EXTRAS LOTS PART PARTS SEED
 *
 * KEYS 1: histories of one key, each with its order; thousands make one text, a key each. KEYS 2: histories of two keys, each
 * with one order of all and a text of its own. Histories have so many OPERATIONS of two clients, and none comes twice, up to
 * names: the first client is 1, the first key is the first, and each value is that of an earlier set, or the next. The last
 * operation of a client may stay without an answer. A get answers nil, a value that some set has, or one that none has.
 *
 * A history is judged without an order, and with each that has at most EXTRAS entries that stand there already or are
 * strangers, and is at most one longer than there are operations. Strangers are a call that was never made and, of one key, a
 * call of another key. Where LOTS isn't 0, so many orders are drawn by lot instead. Only the histories of this PART of PARTS are
 * judged. Where RAMBO is `-`, they are counted alone.
 *
 * All of the output is compared; of every eighth text also that without --why. Each difference is told; the last line is of
 * numbers: histories, verdicts, of these the yes and those of the rules 1 to 5, outputs that passed, and outputs that failed. */
#define _GNU_SOURCE
#include <spawn.h>
#include <stdint.h>
#include <stdio.h>
#include <stdlib.h>
#include <string.h>
#include <sys/mman.h>
#include <sys/wait.h>
#include <unistd.h>

enum { MOST = 6, BLOCKS = 2000, ROOM = 2 << 20 };
/* Entries of an order that are no operation of the history. */
enum { NEVER = MOST, OTHER };
/* Answers that are no value of a set. */
enum { NIL = MOST, STRANGE };

struct operation {
    int client, key, sets, value, is_answered, answer;
    /* in the text: the number of the call, and the lines of the call and of the answer */
    unsigned number, called, told;
};

struct buffer {
    size_t length;
    char bytes[ROOM];
};

static const char *program;
static int keys, count, extras, lots;
static uint64_t part, parts, seed;

/* The history: its operations as they were called, and its moments: a call, or ~ of it for its answer. */
static struct operation operations[MOST];
static int moments[2 * MOST], moment_count;
/* The order, whether it is told, and its line in the text. */
static int order[MOST + 1], length, is_told;
static unsigned order_line;

/* The text, what is to be said of it without and with --why, the witness of one order, and what the program says. */
static struct buffer text, plain, why, witness, said;
static unsigned lines, blocks, numbers[2];
static size_t begins[BLOCKS];
static int input, output, is_any_no;
static uint64_t histories, judged, verdicts[6], texts, passed, failed;

/* ---- the text, and what is to be said of it */

static void put(struct buffer *to, const char *word) {
    while (*word) to->bytes[to->length++] = *word++;
}

static void put_sign(struct buffer *to, int sign) { to->bytes[to->length++] = (char)sign; }

static void put_number(struct buffer *to, unsigned number) {
    char digits[12];
    int at = 12;
    do digits[--at] = '0' + number % 10; while (number /= 10);
    while (at < 12) put_sign(to, digits[at++]);
}

static void end_line(void) {
    put_sign(&text, '\n');
    lines += 1;
}

static void put_line(const char *before, unsigned line) {
    put(&witness, before);
    put(&witness, " (line ");
    put_number(&witness, line);
    put(&witness, ")");
}

static void put_entry(struct buffer *to, int entry) {
    if (entry == NEVER) put(to, "63.7");
    else if (entry == OTHER) put(to, "3.1");
    else {
        put_number(to, operations[entry].client + 1);
        put(to, ".");
        put_number(to, operations[entry].number);
    }
}

static const char *key_sign(int key) {
    static char signs[2][8];
    if (keys == 1) snprintf(signs[key], sizeof signs[key], "%06x", 0x5b5b00 + blocks);
    else strcpy(signs[key], key == 0 ? "6b" : "6b20");
    return signs[key];
}

static const char *value_sign(int value) {
    static const char *signs[2][MOST + 2] = {
        {"61", "62", "63", "64", "65", "66", "nil", "7a"},
        {"-", "20", "6b21", "22", "00ff", "7e", "nil", "6b"},
    };
    return signs[blocks % 2][value];
}

/* The sign, and where no byte of it is a space, a quote or not printable, the bytes in quotes too. */
static void put_shown(struct buffer *to, const char *sign) {
    char bytes[8];
    int length_of = 0;
    put(to, sign);
    for (const char *at = sign; *at && *at != '-'; at += 2) {
        char digits[3] = {at[0], at[1], 0};
        long byte = strtol(digits, NULL, 16);
        if (byte <= 32 || byte >= 127 || byte == '"') return;
        bytes[length_of++] = (char)byte;
    }
    bytes[length_of] = 0;
    put(to, " \"");
    put(to, bytes);
    put(to, "\"");
}

static void put_history(void) {
    for (int at = 0; at < moment_count; at++) {
        int is_call = moments[at] >= 0, entry = is_call ? moments[at] : ~moments[at];
        struct operation *one = &operations[entry];
        if (is_call) one->number = ++numbers[one->client];
        put(&text, is_call ? "call " : "answer ");
        put_entry(&text, entry);
        if (is_call) {
            put(&text, one->sets ? " set " : " get ");
            put(&text, key_sign(one->key));
            if (one->sets) {
                put(&text, " ");
                put(&text, value_sign(one->value));
            }
        } else if (one->sets) {
            put(&text, " ok");
        } else {
            put(&text, one->answer == NIL ? " " : " value ");
            put(&text, value_sign(one->answer));
        }
        end_line();
        *(is_call ? &one->called : &one->told) = lines;
    }
}

static void put_order(const char *word, const char *sign) {
    order_line = 0;
    if (!is_told) return;
    put(&text, word);
    put(&text, sign);
    for (int at = 0; at < length; at++) {
        put(&text, " ");
        put_entry(&text, order[at]);
    }
    end_line();
    order_line = lines;
}

/* ---- the rules, by their words */

/* The place of the entry among the first of the order, or -1. */
static int place_of(int entry, int before) {
    for (int at = 0; at < before; at++) {
        if (order[at] == entry) return at;
    }
    return -1;
}

/* Each answered call is in the order. */
static int breaks_1(int key) {
    for (int entry = 0; entry < count; entry++) {
        struct operation *one = &operations[entry];
        if (!one->is_answered || (key >= 0 && one->key != key) || (is_told && place_of(entry, length) >= 0)) continue;
        put_entry(&witness, entry);
        put_line(" was answered", one->told);
        if (is_told) put_line(" and isn't in the order", order_line);
        else put(&witness, " and no order is told");
        return 1;
    }
    return 0;
}

/* No call is in it twice. */
static int breaks_2(void) {
    for (int at = 0; at < length; at++) {
        if (place_of(order[at], at) < 0) continue;
        put_entry(&witness, order[at]);
        put_line(" stands twice in the order", order_line);
        return 1;
    }
    return 0;
}

/* Nothing is in it but calls of the key, of gets only the answered ones. */
static int breaks_3(void) {
    for (int at = 0; at < length; at++) {
        int entry = order[at];
        if (entry < MOST && (operations[entry].sets || operations[entry].is_answered)) continue;
        put_entry(&witness, entry);
        put_line(" stands in the order", order_line);
        if (entry == NEVER) put(&witness, " and was never called");
        else if (entry == OTHER) put_line(" and is a call of 00", 1);
        else put_line(" and is a get without an answer", operations[entry].called);
        return 1;
    }
    return 0;
}

/* Each get answers the value of the latest set of its key before it, or nil where there is none. */
static int breaks_4(void) {
    for (int at = 0; at < length; at++) {
        struct operation *one = &operations[order[at]], *latest = NULL;
        if (one->sets) continue;
        for (int before = 0; before < at; before++) {
            struct operation *other = &operations[order[before]];
            if (other->sets && other->key == one->key) latest = other;
        }
        if (one->answer == (latest ? latest->value : NIL)) continue;
        put_entry(&witness, order[at]);
        put(&witness, " answered ");
        if (one->answer == NIL) put(&witness, "nil");
        else put_shown(&witness, value_sign(one->answer));
        put_line("", one->told);
        if (latest) {
            put(&witness, ", and the latest set before it is ");
            put_entry(&witness, (int)(latest - operations));
            put(&witness, " of ");
            put_shown(&witness, value_sign(latest->value));
            put_line("", latest->called);
        } else {
            put(&witness, ", and no set stands before it");
        }
        return 1;
    }
    return 0;
}

/* What was answered before another call was made comes before it. The other is told that was called last. */
static int breaks_5(void) {
    for (int at = 0; at < length; at++) {
        struct operation *one = &operations[order[at]];
        int late = -1;
        for (int before = 0; one->is_answered && before < at; before++) {
            int other = order[before];
            if (one->told < operations[other].called && (late < 0 || operations[late].called < operations[other].called)) late = other;
        }
        if (late < 0) continue;
        put_entry(&witness, order[at]);
        put_line(" was answered", one->told);
        put(&witness, " before ");
        put_entry(&witness, late);
        put_line(" was called", operations[late].called);
        put_line(" and stands behind it", order_line);
        return 1;
    }
    return 0;
}

/* Puts the verdict: on the order of a key, or of all keys for -1. A key of which only calls are told has no order. */
static void put_verdict(const char *sign, int key, int has_order) {
    witness.length = 0;
    int rule = breaks_1(key) ? 1 : !has_order ? 0 : breaks_2() ? 2 : breaks_3() ? 3 : breaks_4() ? 4 : breaks_5() ? 5 : 0;
    char number[] = {' ', (char)('0' + rule), 0};
    put(&plain, rule ? "no " : "yes ");
    put(&plain, sign);
    put(&plain, rule ? number : "");
    put(&plain, "\n");
    put(&why, rule ? "no " : "yes ");
    if (key < 0) put(&why, sign);
    else put_shown(&why, sign);
    put(&why, rule ? number : "");
    put(&why, "\n");
    if (rule) {
        witness.bytes[witness.length] = 0;
        put(&why, "  ");
        put(&why, witness.bytes);
        put(&why, "\n");
        is_any_no = 1;
    }
    if (has_order) verdicts[rule] += 1;
}

/* ---- the program's own verdicts */

/* What the program says of the text, and its status. */
static int run(char *option) {
    char *words[] = {(char *)program, "check", option, NULL}, *no_variables[] = {NULL};
    posix_spawn_file_actions_t actions;
    pid_t child;
    int status;
    if (lseek(input, 0, SEEK_SET) < 0 || lseek(output, 0, SEEK_SET) < 0 || ftruncate(output, 0) < 0) abort();
    posix_spawn_file_actions_init(&actions);
    posix_spawn_file_actions_adddup2(&actions, input, 0);
    posix_spawn_file_actions_adddup2(&actions, output, 1);
    if (posix_spawn(&child, program, &actions, NULL, words, no_variables) != 0 || waitpid(child, &status, 0) != child) abort();
    posix_spawn_file_actions_destroy(&actions);
    ssize_t bytes = pread(output, said.bytes, ROOM, 0);
    if (bytes < 0 || bytes == ROOM) abort();
    said.length = (size_t)bytes;
    return WIFEXITED(status) ? WEXITSTATUS(status) : -1;
}

/* Tells the first line that differs, with the lines of its history and order. */
static void tell(const char *option, const struct buffer *wanted, int status) {
    size_t at = 0, line = 0;
    int block = keys == 1 ? -2 : -1;
    while (at < said.length && at < wanted->length && said.bytes[at] == wanted->bytes[at]) {
        if (wanted->bytes[at++] == '\n') line = at;
    }
    for (size_t before = 0; before <= line && before < wanted->length; before++) {
        if ((before == 0 || wanted->bytes[before - 1] == '\n') && wanted->bytes[before] != ' ') block += 1;
    }
    block = keys == 2 || block < 0 ? 0 : block;
    size_t from = begins[block], to = block + 1 < (int)blocks ? begins[block + 1] : text.length;
    printf("check %s ends with %d, and says %.*s where the rules say %.*s\n%.*s", option ? option : "", status,
           (int)strcspn(said.bytes + line, "\n"), said.bytes + line, (int)strcspn(wanted->bytes + line, "\n"), wanted->bytes + line,
           (int)(to - from), text.bytes + from);
}

static void compare(char *option, const struct buffer *wanted) {
    int status = run(option);
    if (status == (is_any_no ? 3 : 0) && said.length == wanted->length && memcmp(said.bytes, wanted->bytes, said.length) == 0) {
        passed += 1;
    } else {
        said.bytes[said.length] = 0;
        if (failed++ < 3) tell(option, wanted, status);
    }
}

static void begin_text(void) {
    text.length = plain.length = why.length = 0;
    lines = blocks = numbers[0] = numbers[1] = 0;
    is_any_no = 0;
    if (keys == 1) {
        put(&text, "call 3.1 set 00 61");
        put(&plain, "yes 00\n");
        put(&why, "yes 00\n");
    } else {
        put(&text, "rambo 2");
    }
    end_line();
}

static void end_text(void) {
    if (blocks == 0) return;
    plain.bytes[plain.length] = why.bytes[why.length] = 0;
    if (ftruncate(input, 0) < 0 || pwrite(input, text.bytes, text.length, 0) != (ssize_t)text.length) abort();
    compare("--why", &why);
    if (texts++ % 8 == 0) compare(NULL, &plain);
    begin_text();
}

/* ---- all histories and orders */

static void judge(void) {
    judged += 1;
    if (!program) return;
    begins[blocks] = text.length;
    put_history();
    if (keys == 1) {
        put_order("sequence ", key_sign(0));
        put_verdict(key_sign(0), 0, 1);
    } else {
        int told = is_told, is_second = 0;
        is_told = 0;
        for (int entry = 0; entry < count; entry++) is_second |= operations[entry].key;
        for (int key = 0; key <= is_second; key++) put_verdict(key_sign(key), key, 0);
        is_told = told;
        put_order("order", "");
        put_verdict("order", -1, 1);
    }
    blocks += 1;
    if (blocks == (keys == 1 ? BLOCKS : 1)) end_text();
}

static void each_order(int left) {
    judge();
    if (length == count + 1) return;
    for (int entry = 0; entry <= (keys == 1 ? OTHER : NEVER); entry++) {
        if (entry >= count && entry < MOST) continue;
        int costs = entry >= MOST || place_of(entry, length) >= 0;
        if (costs > left) continue;
        order[length++] = entry;
        each_order(left - costs);
        length -= 1;
    }
}

static unsigned lot(unsigned below) {
    uint64_t mixed = seed += 0x9e3779b97f4a7c15;
    mixed = (mixed ^ mixed >> 30) * 0xbf58476d1ce4e5b9;
    mixed = (mixed ^ mixed >> 27) * 0x94d049bb133111eb;
    return (unsigned)((mixed ^ mixed >> 31) >> 32) % below;
}

static void put_in(int at, int entry) {
    memmove(order + at + 1, order + at, sizeof *order * (size_t)(length++ - at));
    order[at] = entry;
}

/* An order near that of the calls, with those that have to be in it and some that may; in one of three something is wrong. */
static void order_by_lot(void) {
    static const int later[] = {0, 0, 3, 5};
    int places[MOST];
    length = 0;
    for (int entry = 0; entry < count; entry++) {
        if (!operations[entry].is_answered && (!operations[entry].sets || lot(2))) continue;
        int at = length;
        places[entry] = 2 * entry + later[lot(4)];
        while (at > 0 && places[order[at - 1]] > places[entry]) at--;
        put_in(at, entry);
    }
    int wrong = (int)lot(9), at = (int)lot((unsigned)length + 1), other = (int)lot((unsigned)count + 2);
    if (other >= count) other = other == count || keys == 2 ? NEVER : OTHER;
    if (wrong == 0 && at < length) memmove(order + at, order + at + 1, sizeof *order * (size_t)(--length - at));
    if (wrong == 1 && length) put_in(at, order[lot((unsigned)length)]);
    if (wrong == 2) put_in(at, other);
}

static void each_answer(int entry, int values) {
    struct operation *one = &operations[entry];
    if (entry == count) {
        if (histories++ % parts != part) return;
        length = is_told = 0;
        if (lots == 0) judge();
        is_told = 1;
        if (lots == 0) each_order(extras);
        for (int at = 0; at < lots; at++) order_by_lot(), judge();
    } else if (one->sets || !one->is_answered) {
        each_answer(entry + 1, values);
    } else {
        for (one->answer = 0; one->answer <= STRANGE; one->answer++) {
            if (one->answer < values || one->answer >= NIL) each_answer(entry + 1, values);
        }
    }
}

static void each_kind(int entry, int values) {
    struct operation *one = &operations[entry];
    if (entry == count) {
        each_answer(0, values);
        return;
    }
    for (one->key = 0; one->key < (entry ? keys : 1); one->key++) {
        one->sets = 0;
        each_kind(entry + 1, values);
        one->sets = 1;
        for (one->value = 0; one->value <= values; one->value++) each_kind(entry + 1, values + (one->value == values));
    }
}

/* The operations are called and answered in each order. */
static void each_moment(int called, int open[2]) {
    if (called == count) each_kind(0, 0);
    for (int client = 0; client < 2; client++) {
        int entry = open[client];
        if (entry >= 0) {
            moments[moment_count++] = ~entry;
            operations[entry].is_answered = 1;
            open[client] = -1;
            each_moment(called, open);
            operations[entry].is_answered = 0;
        } else if (called < count && client <= called) {
            moments[moment_count++] = called;
            operations[called].client = client;
            open[client] = called;
            each_moment(called + 1, open);
        } else {
            continue;
        }
        open[client] = entry;
        moment_count -= 1;
    }
}

int main(int words, char **word) {
    if (words != 9) return 2;
    program = strcmp(word[1], "-") ? word[1] : NULL;
    keys = atoi(word[2]), count = atoi(word[3]), extras = atoi(word[4]), lots = atoi(word[5]);
    part = strtoull(word[6], NULL, 10), parts = strtoull(word[7], NULL, 10), seed = strtoull(word[8], NULL, 10);
    if (keys < 1 || keys > 2 || count < 1 || count > MOST || part >= parts) return 2;
    input = memfd_create("text", MFD_CLOEXEC);
    output = memfd_create("verdicts", MFD_CLOEXEC);
    if (input < 0 || output < 0) abort();
    begin_text();
    each_moment(0, (int[2]){-1, -1});
    end_text();
    printf("%ju %ju", (uintmax_t)(histories + parts - 1 - part) / parts, (uintmax_t)judged);
    for (int rule = 0; rule < 6; rule++) printf(" %ju", (uintmax_t)verdicts[rule]);
    printf(" %ju %ju\n", (uintmax_t)passed, (uintmax_t)failed);
    return 0;
}
