/* Parses a file a number of times, and prints each time in seconds; or with the count 0 prints its tree. */
#ifndef MAIN_H
#define MAIN_H

#include <string.h>
#include <time.h>

/* What is still to be printed: a node, or the end of one. */
struct ahead {
    struct node *node;
    struct ahead *next;
};

static void print(struct node *first) {
    struct ahead *left = calloc(1, sizeof *left);
    left->node = first;
    int begun = 1;
    while (left) {
        struct ahead *top = left;
        struct node *node = top->node;
        left = top->next;
        free(top);
        if (!node) {
            putchar(')');
            continue;
        }
        printf("%s%s%s", begun ? "" : " ", node->count < 0 ? "" : "(", node->name);
        begun = 0;
        if (node->count < 0)
            continue;
        struct ahead *end = calloc(1, sizeof *end);
        end->next = left;
        left = end;
        for (int i = node->count; i-- > 0;) {
            struct ahead *child = calloc(1, sizeof *child);
            child->node = node->children[i];
            child->next = left;
            left = child;
        }
    }
    putchar('\n');
}

static double seconds(void) {
    struct timespec now;
    clock_gettime(CLOCK_MONOTONIC, &now);
    return now.tv_sec + now.tv_nsec / 1e9;
}

static char *contents(const char *path, size_t *size) {
    FILE *file = fopen(path, "rb");
    if (!file)
        exit(2);
    fseek(file, 0, SEEK_END);
    *size = ftell(file);
    rewind(file);
    char *text = malloc(*size + 2);
    if (!text || fread(text, 1, *size, file) != *size)
        exit(2);
    fclose(file);
    text[*size] = text[*size + 1] = 0;
    return text;
}

/* Copies the text as flex wants it, scans and parses it, and builds its tree. */
static int parse(const char *text, size_t size) {
    YY_BUFFER_STATE buffer = yy_scan_bytes(text, size);
    int failed = yyparse();
    yy_delete_buffer(buffer);
    return failed;
}

int main(int count, char **words) {
    size_t size;
    char *text = contents(words[1], &size);
    int rounds = atoi(words[2]);
    if (rounds == 0) {
        if (parse(text, size))
            return 1;
        print(root);
    }
    for (int i = 0; i < rounds; i++) {
        double begun = seconds();
        if (parse(text, size))
            return 1;
        printf("%.9f\n", seconds() - begun);
        forget();
    }
    return 0;
}

#endif
