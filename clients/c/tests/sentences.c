/* Compares the sentences of refusals with the tables of docs/REFUSALS.md and docs/PROTOCOL.md: sentences FILE.. */
#include "../bpfmap_client.h"
#include "server.h"

enum { LINE_BYTES = 2048, NUMBERS = 256 };

static int is_known(unsigned number)
{
    return strcmp(bpfmap_sentence((uint8_t)number), bpfmap_sentence(0)) != 0;
}

static void drop_backquotes(char *text)
{
    char *to = text;
    for (; *text; text++)
        if (*text != '`')
            *to++ = *text;
    *to = 0;
}

/* Marks the numbers whose row in this file has their sentence. */
static void read_tables(const char *name, int *found)
{
    static char line[LINE_BYTES];
    FILE *file = fopen(name, "r");
    CHECK(file, "there is no %s", name);
    while (fgets(line, sizeof line, file)) {
        unsigned number;
        drop_backquotes(line);
        if (sscanf(line, "| %u |", &number) == 1 && number < NUMBERS && strstr(line, bpfmap_sentence((uint8_t)number)))
            found[number] = 1;
    }
    fclose(file);
}

int main(int count, char **word)
{
    static int found[NUMBERS];
    int known = 0;
    for (int i = 1; i < count; i++)
        read_tables(word[i], found);
    for (unsigned number = 0; number < NUMBERS; number++) {
        CHECK(!is_known(number) || found[number], "no table has the sentence of %u", number);
        known += is_known(number);
    }
    CHECK(known == 29, "%d refusals have a sentence", known);
    printf("client c: %d sentences of refusals are those of the tables\n", known);
    return 0;
}
