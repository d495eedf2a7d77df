/* Trees of a whole parse: a node has its production's left side, and as many children as that has symbols. */
#ifndef TREE_H
#define TREE_H

#include <stdarg.h>
#include <stdio.h>
#include <stdlib.h>

struct node {
    const char *name;
    int count;
    struct node *children[];
};

/* The memory of all nodes of one parse, in blocks that the next parse takes over. */
struct block {
    struct block *next;
    char bytes[1 << 20];
};

static struct block *first, *now;
static size_t used;
static struct node *root;

static struct block *block_after(struct block *before) {
    if (before && before->next)
        return before->next;
    struct block *block = calloc(1, sizeof *block);
    if (!block)
        abort();
    if (before)
        before->next = block;
    return block;
}

static void *take(size_t size) {
    if (!first)
        first = now = block_after(NULL);
    if (used + size > sizeof now->bytes) {
        now = block_after(now);
        used = 0;
    }
    void *memory = now->bytes + used;
    used += (size + 7) & ~(size_t)7;
    return memory;
}

static void forget(void) {
    now = first;
    used = 0;
}

static struct node *branch(const char *name, int count, ...) {
    struct node *node = take(sizeof *node + count * sizeof node->children[0]);
    node->name = name;
    node->count = count;
    va_list children;
    va_start(children, count);
    for (int i = 0; i < count; i++)
        node->children[i] = va_arg(children, struct node *);
    va_end(children);
    return node;
}

#endif
