/* Counts the words of standard input. */
#include "report.h"
#include "words.h"

#include <stdlib.h>

int main(void)
{
    struct table table;
    size_t length = 0, capacity = 0;
    char *text = NULL;
    int is_done = 0;

    while (!is_done) {
        if (length == capacity) {
            capacity = capacity == 0 ? 4096 : 2 * capacity;
            char *longer = realloc(text, capacity);
            if (longer == NULL) {
                free(text);
                return 2;
            }
            text = longer;
        }
        size_t count = fread(text + length, 1, capacity - length, stdin);
        length += count;
        is_done = count == 0;
    }
    table_init(&table);
    if (count_words(&table, text, length) != 0)
        return 2;
    report(&table, stdout);
    table_free(&table);
    free(text);
    return 0;
}
