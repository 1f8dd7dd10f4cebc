/* Puts numbers into a search tree and prints them in their order, with the tree's depth. */
#include "bare.h"

struct node {
    i32 key;
    u8 times;
    struct node *less, *more;
};

static struct node pool[200];
static u32 used;

static struct node *insert(struct node *tree, i32 key)
{
    if (!tree) {
        tree = &pool[used++];
        *tree = (struct node){key, 1, 0, 0};
    } else if (key == tree->key)
        tree->times++;
    else if (key < tree->key)
        tree->less = insert(tree->less, key);
    else
        tree->more = insert(tree->more, key);
    return tree;
}

static int depth(const struct node *tree)
{
    if (!tree)
        return 0;
    int less = depth(tree->less), more = depth(tree->more);
    return 1 + (less > more ? less : more);
}

static void print(const struct node *tree)
{
    if (!tree)
        return;
    print(tree->less);
    number(tree->key);
    if (tree->times > 1) {
        text("*");
        number(tree->times);
    }
    text("\n");
    print(tree->more);
}

static int program(void)
{
    struct node *tree = 0;
    u32 seed = 1;
    for (int i = 0; i < 200; i++) {
        seed = seed * 1103515245 + 12345;
        tree = insert(tree, (i32)seed >> 23);
    }
    print(tree);
    return depth(tree);
}
