/* Each code of a table of records in lembokuj_try.h once, from each call that has it. The library gets its memory from this program, which
 * refuses some requests, and lets a second caller call while a first one has a partition. */
#include "lembokuj_try.h"

#include <stdio.h>
#include <stdlib.h>

static int line_of_failure;

#define IS(call, code) \
    do { \
        if ((call) != (code) && !line_of_failure) line_of_failure = __LINE__; \
    } while (0)

/* ---- The library's memory, in place of the toolchain's liblibc_c.a ---- */

typedef struct {
    bool ok;
    unsigned char *at;
} granted;

granted rattle_alloc(size_t length, size_t align);
granted rattle_realloc(unsigned char *at, size_t kept, size_t length, size_t align);
void rattle_dealloc(unsigned char *at);

static bool is_refused;           /* whether requests are refused */
static void (*at_request)(void);  /* what is called at the next request, once */
static unsigned char none[16];

static granted answer(unsigned char *at) {
    return at ? (granted){true, at} : (granted){false, none};
}

static bool has_memory(void) {
    void (*call)(void) = at_request;
    at_request = NULL;
    if (call) call();
    return !is_refused;
}

granted rattle_alloc(size_t length, size_t align) {
    return answer(has_memory() ? malloc(length ? length : align) : NULL);
}

granted rattle_realloc(unsigned char *at, size_t kept, size_t length, size_t align) {
    (void)kept;
    return answer(has_memory() ? realloc(at, length ? length : align) : NULL);
}

void rattle_dealloc(unsigned char *at) {
    free(at);
}

/* ---- The calls ---- */

static lk_records_try one = LK_BLANK, two = LK_BLANK, three = LK_BLANK;
static const lk_record first_of = {2, {1, 2}}, second_of = {16, {1, 2, 3, 4, 5, 6, 7, 8, 9, 10, 11, 12, 13, 14, 15, 16}}, too_long = {17, {0}};
static lk_record old;

static bool same(const lk_record *a, const lk_record *b) {
    for (int n = 0; n < LK_RECORD_WORDS; n++)
        if (a->words[n] != b->words[n]) return false;
    return a->count == b->count;
}

static lk_record record_of(uint64_t number) {
    lk_record made = {LK_RECORD_WORDS, {0}};
    for (int n = 0; n < LK_RECORD_WORDS; n++) made.words[n] = number + (uint64_t)n;
    return made;
}

/* Records of words, handles and their words. */
static void new_and_share(void) {
    uint64_t words[17] = {1, 2};
    IS(lk_record_of(words, 2, NULL), LK_NULL);
    IS(lk_record_of(NULL, 2, &old), LK_NULL);
    IS(lk_record_of(words, 17, &old), LK_BAD_SIZE);
    IS(lk_record_of(words, 2, &old), LK_OK);
    IS(same(&old, &first_of), true);
    IS(lk_record_of(NULL, 0, &old), LK_OK);
    IS(old.count, 0);
    IS(lk_records_new_try(2, 3000, NULL), LK_NULL);
    IS(lk_records_new_try(0, 3000, &one), LK_BAD_CALLERS);
    IS(lk_records_new_try(4097, 3000, &one), LK_BAD_CALLERS);
    IS(lk_records_new_try(2, 67108736, &one), LK_BAD_SIZE);
    IS(lk_records_put_try(&one, 1, &first_of, &old), LK_NULL);
    IS(lk_records_new_try(2, 3000, &one), LK_OK);
    IS(lk_records_new_try(2, 3000, &one), LK_IN_USE);
    IS(lk_records_share_try(&one, 8, &one), LK_IN_USE);
    IS(lk_records_share_try(&two, 8, &three), LK_NULL);
    IS(lk_records_share_try(&one, 3001, &two), LK_NO_SPACE);
    IS(lk_records_share_try(&one, 20, &two), LK_OK);
    IS(lk_records_share_try(&one, 20, &two), LK_IN_USE);
    IS(lk_records_share_try(&one, 20, &three), LK_BAD_CALLERS);
}

/* A key comes, is changed by each of the two, and goes. */
static void one_key(void) {
    old = second_of;
    IS(lk_records_get_try(&one, 1, NULL), LK_NULL);
    IS(lk_records_get_try(&one, 1, &old), LK_ABSENT);
    IS(same(&old, &second_of), true);
    IS(lk_records_put_try(&one, 1, NULL, &old), LK_NULL);
    IS(lk_records_put_try(&one, 1, &old, &old), LK_IN_USE);
    IS(lk_records_put_try(&one, 1, &too_long, &old), LK_BAD_SIZE);
    IS(lk_records_put_absent_try(&one, 1, NULL, &old), LK_NULL);
    IS(lk_records_put_absent_try(&one, 1, &old, &old), LK_IN_USE);
    IS(lk_records_put_absent_try(&one, 1, &too_long, &old), LK_BAD_SIZE);
    IS(lk_records_put_try(&one, 1, &first_of, NULL), LK_ABSENT);
    IS(lk_records_put_try(&two, 1, &second_of, &old), LK_OK);
    IS(same(&old, &first_of), true);
    IS(lk_records_get_try(&one, 1, &old), LK_OK);
    IS(same(&old, &second_of), true);
    old = first_of;
    IS(lk_records_put_absent_try(&one, 1, &first_of, &old), LK_OK);
    IS(same(&old, &second_of), true);
    old = first_of;
    IS(lk_records_delete_try(&two, 1, &old), LK_OK);
    IS(same(&old, &second_of), true);
    IS(lk_records_delete_try(&one, 1, &old), LK_ABSENT);
    IS(same(&old, &second_of), true);
    IS(lk_records_put_absent_try(&two, 1, &first_of, NULL), LK_ABSENT);
    IS(lk_records_delete_try(&two, 1, NULL), LK_OK);
}

/* The second one has words for an item, and got another's; then it has none, and none for a slice. With keys enough some
 * partition grows. */
static void words(void) {
    IS(lk_records_put_try(&two, 1, &first_of, &old), LK_ABSENT);
    IS(lk_records_put_wait(&two, 2, &first_of, &old), LK_ABSENT);
    IS(lk_records_put_try(&two, 3, &first_of, &old), LK_NO_SPACE);
    IS(lk_records_put_absent_try(&two, 3, &first_of, &old), LK_NO_SPACE);

    int code, grown = 0;
    for (uint64_t key = 100; key < 200; key++) {
        lk_record value = record_of(key);
        while ((code = lk_records_put_try(&one, key, &value, &old)) == LK_GROWN) grown++;
        IS(code, LK_ABSENT);
    }
    if (!grown && !line_of_failure) line_of_failure = __LINE__;
    for (uint64_t key = 100; key < 200; key++) {
        lk_record value = record_of(key);
        IS(lk_records_get_try(&two, key, &old), LK_OK);
        IS(same(&old, &value), true);
    }
}

enum { ROOM = 64 };

static uint64_t keys[ROOM], count;
static lk_record values[ROOM];

/* All keys, partition by partition: 1, 2 and those from 100 to 199, each once. */
static void count_and_list(void) {
    uint64_t counted = 0, listed = 0, sum = 0;
    IS(lk_records_count_try(&one, 0, NULL), LK_NULL);
    IS(lk_records_count_try(&three, 0, &count), LK_NULL);
    IS(lk_records_count_try(&one, LK_PARTITIONS, &count), LK_BAD_SIZE);
    IS(lk_records_count_wait(&three, &count), LK_NULL);
    IS(lk_records_list_try(&one, 0, keys, values, ROOM, NULL), LK_NULL);
    IS(lk_records_list_try(&one, 0, NULL, values, ROOM, &count), LK_NULL);
    IS(lk_records_list_try(&one, 0, keys, NULL, ROOM, &count), LK_NULL);
    IS(lk_records_list_try(&three, 0, keys, values, ROOM, &count), LK_NULL);
    count = 7;
    IS(lk_records_list_try(&one, LK_PARTITIONS, keys, values, ROOM, &count), LK_BAD_SIZE);
    IS(count, 0);
    for (uint32_t partition = 0; partition < LK_PARTITIONS; partition++) {
        uint64_t short_of = 7;
        IS(lk_records_count_try(&one, partition, &count), LK_OK);
        counted += count;
        if (count) {
            keys[0] = values[0].count = 7;
            IS(lk_records_list_try(&two, partition, keys, values, count - 1, &short_of), LK_SHORT_BUFFER);
            IS(short_of, count);
            IS(keys[0] == 7 && values[0].count == 7, true);
        }
        IS(lk_records_list_try(&two, partition, NULL, NULL, 0, &short_of), count ? LK_SHORT_BUFFER : LK_OK);
        IS(short_of, count);
        keys[count] = values[count].count = 7;
        IS(lk_records_list_try(&two, partition, keys, values, ROOM, &count), LK_OK);
        IS(count, short_of);
        IS(keys[count] == 7 && values[count].count == 7, true);
        IS(lk_records_list_try(&two, partition, keys, values, count, &count), LK_OK);
        for (uint64_t n = 0; n < count; n++) {
            IS(lk_records_get_try(&one, keys[n], &old), LK_OK);
            IS(same(&values[n], &old), true);
            sum += keys[n];
        }
        listed += count;
    }
    IS(counted, 102);
    IS(listed, 102);
    IS(sum, 14953);
    IS(lk_records_count_wait(&two, &count), LK_OK);
    IS(count, 102);
}

static uint32_t home;       /* a partition that has keys */
static uint64_t there, away; /* a key of it, and one of another partition */

/* What the second one can do while the first one lists that partition. */
static void meanwhile(void) {
    uint64_t some[ROOM], n = 7;
    static lk_record more[ROOM];
    lk_record got = second_of;
    IS(lk_records_get_try(&two, there, &got), LK_WOULD_BLOCK);
    IS(lk_records_put_try(&two, there, &first_of, &got), LK_WOULD_BLOCK);
    IS(lk_records_put_absent_try(&two, there, &first_of, &got), LK_WOULD_BLOCK);
    IS(lk_records_delete_try(&two, there, &got), LK_WOULD_BLOCK);
    IS(same(&got, &second_of), true);
    IS(lk_records_count_try(&two, home, &n), LK_WOULD_BLOCK);
    IS(n, 7);
    IS(lk_records_list_try(&two, home, some, more, ROOM, &n), LK_WOULD_BLOCK);
    IS(n, 0);
    IS(lk_records_get_try(&two, away, &got), LK_OK);
}

/* Another caller has the partition. */
static void would_block(void) {
    there = away = 0;
    for (uint32_t partition = 0; partition < LK_PARTITIONS && !away; partition++) {
        IS(lk_records_list_try(&one, partition, keys, values, ROOM, &count), LK_OK);
        if (!count) continue;
        away = there;
        there = keys[0];
        home = partition;
    }
    at_request = meanwhile;
    IS(lk_records_list_try(&one, home, keys, values, ROOM, &count), LK_OK);
    IS(at_request == NULL, true);
    IS(lk_records_get_try(&two, there, &old), LK_OK);
    IS(same(&old, &values[0]), true);
}

/* A table with a seed. */
static void with_seed(void) {
    lk_records_try seeded = LK_BLANK;
    IS(lk_records_new_with_seed_try(1, 3000, 7, NULL), LK_NULL);
    IS(lk_records_new_with_seed_try(0, 3000, 7, &seeded), LK_BAD_CALLERS);
    IS(lk_records_new_with_seed_try(1, 67108736, 7, &seeded), LK_BAD_SIZE);
    IS(lk_records_new_with_seed_try(1, 3000, 7, &seeded), LK_OK);
    IS(lk_records_new_with_seed_try(1, 3000, 7, &seeded), LK_IN_USE);
    for (uint64_t key = 0; key < 50; key++) {
        lk_record value = record_of(2 * key);
        IS(lk_records_put_wait(&seeded, key, &value, &old), LK_ABSENT);
    }
    for (uint64_t key = 0; key < 50; key++) {
        lk_record value = record_of(2 * key);
        IS(lk_records_get_try(&seeded, key, &old), LK_OK);
        IS(same(&old, &value), true);
    }
    IS(lk_records_close_try(&seeded), LK_OK);
}

/* The requests of each call are refused. */
static void no_memory(void) {
    lk_records_try first = LK_BLANK, next = LK_BLANK;
    is_refused = true;
    IS(lk_records_new_try(2, 1000, &first), LK_NO_MEMORY);
    is_refused = false;
    IS(lk_records_new_try(2, 1000, &first), LK_OK);
    is_refused = true;
    IS(lk_records_share_try(&first, 20, &next), LK_NO_MEMORY);
    IS(lk_records_put_try(&first, 1, &first_of, &old), LK_NO_MEMORY);
    IS(lk_records_put_absent_try(&first, 1, &first_of, &old), LK_NO_MEMORY);
    IS(lk_records_delete_try(&first, 1, &old), LK_NO_MEMORY);
    count = 7;
    IS(lk_records_list_try(&first, 0, keys, values, ROOM, &count), LK_NO_MEMORY);
    IS(count, 0);
    IS(lk_records_get_try(&first, 1, &old), LK_ABSENT);
    IS(lk_records_count_try(&first, 0, &count), LK_OK);
    IS(count, 0);
    is_refused = false;
    IS(lk_records_close_try(&first), LK_OK);
}

static void close_all(void) {
    IS(lk_records_close_try(&two), LK_OK);
    IS(lk_records_close_try(&two), LK_NULL);
    IS(lk_records_get_try(&one, 1, &old), LK_OK);
    IS(lk_records_close_try(&one), LK_OK);
}

int main(void) {
    new_and_share();
    one_key();
    words();
    count_and_list();
    would_block();
    with_seed();
    no_memory();
    close_all();
    if (line_of_failure) {
        fprintf(stderr, "records_codes: line %d of records_codes.c\n", line_of_failure);
        return 1;
    }
    printf("records_codes: each once\n");
    return 0;
}
