/* A small real program for the test of tools/trace: it counts the words of a text in a list of nodes, with a line buffer that grows,
   and forgets one block. Its allocations are logged by mtrace, where MALLOC_TRACE names a file. */
#include <mcheck.h>
#include <stdio.h>
#include <stdlib.h>
#include <string.h>

struct node {
    struct node *next;
    char *word;
    long count;
};

static char *copy(const char *from)
{
    char *to = malloc(strlen(from) + 1);
    return to ? strcpy(to, from) : to;
}

static void count(struct node **list, const char *word)
{
    struct node *it = *list;
    while (it && strcmp(it->word, word))
        it = it->next;
    if (!it) {
        it = calloc(1, sizeof *it);
        if (!it)
            exit(1);
        it->word = copy(word);
        it->next = *list;
        *list = it;
    }
    it->count++;
}

int main(void)
{
    mtrace();
    char *table = malloc(200000), *line = NULL;
    struct node *list = NULL;
    size_t size = 0;
    for (int i = 0; i < 40; i++) {
        char word[16];
        snprintf(word, sizeof word, "w%d", i * 7 % 29);
        if (size < (size_t)(i + 1) * 8)
            line = realloc(line, size = (i + 1) * 24);
        strcpy(line + i * 8, word);
        count(&list, word);
    }
    for (struct node *it = list, *next; it; it = next) {
        next = it->next;
        if (it->count == 1)
            continue;
        free(it->word);
        free(it);
    }
    free(line);
    free(copy("kept for a moment"));
    table[0] = 1;
    copy("forgotten");
    free(table);
    muntrace();
    return 0;
}
