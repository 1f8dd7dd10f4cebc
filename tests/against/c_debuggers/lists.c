/* Lists and trees in one block of memory. */
struct node {
    long key;
    struct node *left, *right;
};

struct cell {
    struct cell *next;
    struct node *node;
};

static struct node nodes[16];
static struct cell cells[16];
static int used;

__attribute__((noinline)) static struct node *inserted(struct node *tree, long key)
{
    if (!tree) {
        tree = &nodes[used++];
        tree->key = key;
    } else if (key < tree->key)
        tree->left = inserted(tree->left, key);
    else if (key > tree->key)
        tree->right = inserted(tree->right, key);
    return tree;
}

__attribute__((noinline)) static struct cell *listed(const struct node *tree, struct cell *behind)
{
    if (!tree)
        return behind;
    struct cell *rest = listed(tree->right, behind);
    struct cell *cell = &cells[tree - nodes];
    cell->node = &nodes[tree - nodes];
    cell->next = rest;
    return listed(tree->left, cell);
}

__attribute__((noinline)) static int height(const struct node *tree)
{
    if (!tree)
        return 0;
    int left = height(tree->left), right = height(tree->right);
    return 1 + (left > right ? left : right);
}

int main(void)
{
    static const signed char keys[] = {5, -3, 9, 7, 1, -8, 12, 6};
    struct node *tree = 0;
    for (unsigned at = 0; at < sizeof keys; at++)
        tree = inserted(tree, keys[at]);
    long sum = 0;
    for (struct cell *cell = listed(tree, 0); cell; cell = cell->next)
        sum = sum * 3 + cell->node->key;
    return (sum + height(tree)) & 127;
}
