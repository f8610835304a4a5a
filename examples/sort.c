// Sorts `count` pseudo-random numbers in place by heapsort. The result is the number at a place of the sorted row, or -1 where the row
// isn't in order.
// Built by:
//   clang --target=wasm32 -mbulk-memory -O2 -nostdlib -Wl,--no-entry -Wl,--strip-all -Wl,--export=sorted -o sort.wasm sort.c

enum { MOST = 10000 };

static int row[MOST];

static void fill(int count) {
  unsigned seed = 12345;
  for (int at = 0; at < count; at++) {
    seed = seed * 1664525u + 1013904223u;
    row[at] = (int)(seed >> 8);
  }
}

static void sift(int root, int count) {
  int value = row[root];
  for (int child = 2 * root + 1; child < count; child = 2 * root + 1) {
    if (child + 1 < count && row[child] < row[child + 1])
      child++;
    if (row[child] <= value)
      break;
    row[root] = row[child];
    root = child;
  }
  row[root] = value;
}

static void sort(int count) {
  for (int root = count / 2 - 1; root >= 0; root--)
    sift(root, count);
  for (int last = count - 1; last > 0; last--) {
    int greatest = row[0];
    row[0] = row[last];
    row[last] = greatest;
    sift(0, last);
  }
}

int sorted(int count, int place) {
  if (count < 1 || count > MOST || place < 0 || place >= count)
    return -1;
  fill(count);
  sort(count);
  for (int at = 1; at < count; at++)
    if (row[at - 1] > row[at])
      return -1;
  return row[place];
}
