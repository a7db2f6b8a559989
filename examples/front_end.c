/* A small front end: answers the questions on standard input, one to a line (docs/MANUAL.md, "The small front end"). */
#include "mte.h"

#include <ctype.h>
#include <errno.h>
#include <stdio.h>
#include <stdlib.h>
#include <string.h>

#define QUESTIONS "\"choose START OFFSET MASK\" or \"word WORD\", in hexadecimal, ended by a line feed"

/* Longer than any question; a line that fills it is refused. */
#define LINE_SIZE 128

/* Reads a hexadecimal number of at most 32 bits at *text and moves *text past it. */
static int read_number(const char **text, uint32_t *value)
{
    const char *digits = *text + strspn(*text, " ");
    char *end;
    unsigned long long number;

    if (!isxdigit((unsigned char)*digits))
        return 0;
    errno = 0;
    number = strtoull(digits, &end, 16);
    if (errno != 0 || number > UINT32_MAX)
        return 0;
    *value = (uint32_t)number;
    *text = end;
    return 1;
}

/* Reads as many numbers as there are and nothing after them. */
static int read_numbers(const char *text, uint32_t *values, int count)
{
    for (int i = 0; i < count; i++)
        if (!read_number(&text, &values[i]))
            return 0;
    return *text == '\0';
}

static void print_choice(const uint32_t *n)
{
    uint32_t tag = mte_choose_tag(n[0], n[1], n[2]);

    printf("choose %x %x %04x: ", n[0], n[1], n[2]);
    if (tag == MTE_NO_TAG)
        puts("no tag");
    else
        printf("tag %x\n", tag);
}

static void print_code(uint32_t word)
{
    uint32_t code = mte_word_code(word);

    printf("word %08x: code %u %s\n", word, code, code == MTE_DONE ? "DONE" : "UNDEFINED");
}

/* Answers one question, or tells that the line is none. */
static int answer(const char *line)
{
    uint32_t n[3];

    if (line[0] == '\0' || line[0] == '#')
        puts(line);
    else if (strncmp(line, "choose ", 7) == 0 && read_numbers(line + 7, n, 3))
        print_choice(n);
    else if (strncmp(line, "word ", 5) == 0 && read_numbers(line + 5, n, 1))
        print_code(n[0]);
    else
        return 0;
    return 1;
}

int main(void)
{
    char line[LINE_SIZE];

    for (unsigned long number = 1; fgets(line, sizeof line, stdin); number++) {
        size_t length = strcspn(line, "\n");
        int ended = line[length] == '\n';

        line[length] = '\0';
        if (!ended || !answer(line)) {
            fprintf(stderr, "line %lu is no question: " QUESTIONS "\n", number);
            return 1;
        }
    }
    if (ferror(stdin)) {
        perror("cannot read standard input");
        return 1;
    }
    if (fflush(stdout) != 0 || ferror(stdout)) {
        perror("cannot write standard output");
        return 1;
    }
    return 0;
}
