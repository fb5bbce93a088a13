#include "table.h"

#include <stdlib.h>
#include <string.h>

static const size_t FIRST_CAPACITY = 64;

void table_init(struct table *table)
{
    table->entries = NULL;
    table->used = 0;
    table->capacity = 0;
}

void table_free(struct table *table)
{
    for (size_t i = 0; i < table->capacity; i++)
        free(table->entries[i].word);
    free(table->entries);
    table_init(table);
}

static size_t hash(const char *word, size_t length)
{
    size_t sum = 5381;

    for (size_t i = 0; i < length; i++)
        sum = sum * 33 + (unsigned char)word[i];
    return sum;
}

/* The word's entry, or the free one where it belongs. There is always a free one. */
static struct entry *find(struct entry *entries, size_t capacity, const char *word, size_t length)
{
    size_t at = hash(word, length) % capacity;

    while (entries[at].word != NULL) {
        if (strncmp(entries[at].word, word, length) == 0 && entries[at].word[length] == '\0')
            break;
        at = (at + 1) % capacity;
    }
    return &entries[at];
}

static int grow(struct table *table)
{
    size_t capacity = table->capacity == 0 ? FIRST_CAPACITY : 2 * table->capacity;
    struct entry *entries = calloc(capacity, sizeof *entries);

    if (entries == NULL)
        return -1;
    for (size_t i = 0; i < table->capacity; i++) {
        const struct entry *old = &table->entries[i];

        if (old->word != NULL)
            *find(entries, capacity, old->word, strlen(old->word)) = *old;
    }
    free(table->entries);
    table->entries = entries;
    table->capacity = capacity;
    return 0;
}

int table_add(struct table *table, const char *word, size_t length)
{
    struct entry *entry;

    if (2 * (table->used + 1) > table->capacity && grow(table) != 0)
        return -1;
    entry = find(table->entries, table->capacity, word, length);
    if (entry->word == NULL) {
        entry->word = malloc(length + 1);
        if (entry->word == NULL)
            return -1;
        memcpy(entry->word, word, length);
        entry->word[length] = '\0';
        table->used++;
    }
    entry->count++;
    return 0;
}

unsigned long table_count(const struct table *table, const char *word)
{
    const struct entry *entry;

    if (table->capacity == 0)
        return 0;
    entry = find(table->entries, table->capacity, word, strlen(word));
    return entry->count;
}
