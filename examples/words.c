// Counts words in a hash table of chains, whose nodes come from an allocator over memory.grow. The result is how often the commonest of
// `count` pseudo-random words comes, times 100,000, and how many different ones there are; -1 where no memory is left.
// Built by:
//   clang --target=wasm32 -mbulk-memory -O2 -nostdlib -Wl,--no-entry -Wl,--strip-all -Wl,--export=words -o words.wasm words.c

typedef struct Node {
  struct Node *next;
  unsigned key;
  int times;
  unsigned char spelling[52];
} Node;

enum { CHAINS = 256, PAGE = 65536 };

static Node *chains[CHAINS];
static unsigned char *free_from, *free_to;

// Bytes that nothing else has, on new pages where the last ones are full.
static void *take(unsigned size) {
  if ((unsigned)(free_to - free_from) < size) {
    unsigned long old = __builtin_wasm_memory_grow(0, 1);
    if (old == (unsigned long)-1)
      return 0;
    free_from = (unsigned char *)(old * PAGE);
    free_to = free_from + PAGE;
  }
  void *taken = free_from;
  free_from += size;
  return taken;
}

static Node *find(unsigned key) {
  Node **chain = &chains[key * 2654435761u >> 24];
  for (Node *node = *chain; node; node = node->next)
    if (node->key == key)
      return node;
  Node *node = take(sizeof(Node));
  if (!node)
    return 0;
  node->next = *chain;
  node->key = key;
  node->times = 0;
  for (unsigned at = 0; at < sizeof node->spelling; at++)
    node->spelling[at] = (unsigned char)(key >> at % 16);
  *chain = node;
  return node;
}

int words(int count) {
  unsigned seed = 1;
  int most = 0, different = 0;
  for (int k = 0; k < CHAINS; k++)
    chains[k] = 0;
  for (int k = 0; k < count; k++) {
    seed = seed * 1103515245u + 12345u;
    Node *node = find((seed >> 16) % 5000);
    if (!node)
      return -1;
    if (node->times++ == 0)
      different++;
    if (node->times > most)
      most = node->times;
  }
  return most * 100000 + different;
}
