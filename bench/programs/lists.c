/* Linked lists: numbers in a scattered order, sorted by merging, reversed, and split again. */

#include "bench.h"

#define NODES 8192

struct node {
    struct node *next;
    u64 value;
};

static struct node nodes[NODES];

static struct node *merged(struct node *a, struct node *b)
{
    struct node head, *last = &head;
    while (a && b) {
        struct node **least = a->value <= b->value ? &a : &b;
        last->next = *least;
        last = *least;
        *least = last->next;
    }
    last->next = a ? a : b;
    return head.next;
}

static struct node *sorted(struct node *list)
{
    if (!list || !list->next)
        return list;
    struct node *slow = list, *fast = list->next;
    while (fast && fast->next) {
        slow = slow->next;
        fast = fast->next->next;
    }
    struct node *rest = slow->next;
    slow->next = 0;
    return merged(sorted(list), sorted(rest));
}

static struct node *reversed(struct node *list)
{
    struct node *before = 0;
    while (list) {
        struct node *after = list->next;
        list->next = before;
        before = list;
        list = after;
    }
    return before;
}

/* The generator gives each number below NODES once (Hull and Dobell): they come back in falling order. */
static int round_is_right(void)
{
    struct node *list = 0;
    u64 value = 1;
    for (u64 i = 0; i < NODES; i++) {
        value = (value * 1229 + 3) % NODES;
        nodes[i].value = value;
        nodes[i].next = list;
        list = &nodes[i];
    }
    list = reversed(sorted(list));
    u64 wanted = NODES;
    for (; list; list = list->next)
        if (list->value != --wanted)
            return 0;
    return wanted == 0;
}
