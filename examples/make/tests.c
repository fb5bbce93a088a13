/* The tests: each says what it expects where that doesn't hold. */
#include "report.h"
#include "words.h"

#include <stdio.h>
#include <string.h>

static int failures;

static void expect(int holds, const char *what)
{
    if (!holds) {
        fprintf(stderr, "%s: %s\n", __FILE__, what);
        failures++;
    }
}

static void counts_words(void)
{
    static const char TEXT[] = "a bb, a.\nbb\ta ccc";
    struct table table;

    table_init(&table);
    expect(count_words(&table, TEXT, strlen(TEXT)) == 0, "counting");
    expect(table.used == 3, "three words");
    expect(table_count(&table, "a") == 3, "a came three times");
    expect(table_count(&table, "bb") == 2, "bb came twice");
    expect(table_count(&table, "ccc") == 1, "ccc came once");
    expect(table_count(&table, "c") == 0, "c is no word");
    table_free(&table);
}

static void grows(void)
{
    struct table table;
    char word[32];

    table_init(&table);
    for (int i = 0; i < 1000; i++) {
        int length = snprintf(word, sizeof word, "w%d", i % 500);
        expect(table_add(&table, word, (size_t)length) == 0, "adding");
    }
    expect(table.used == 500, "five hundred words");
    expect(table_count(&table, "w499") == 2, "each came twice");
    table_free(&table);
}

int main(void)
{
    counts_words();
    grows();
    expect(strcmp(rank_name(1), "second") == 0, "a rank's name");
    if (failures == 0)
        puts("all tests pass");
    return failures != 0;
}
