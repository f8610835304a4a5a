// The CRC-32 of the bytes of a text of `length` letters (ISO 3309, with the polynomial 0xEDB88320), over a table that is made first.
// Built by:
//   clang --target=wasm32 -mbulk-memory -O2 -nostdlib -Wl,--no-entry -Wl,--strip-all -Wl,--export=crc -o crc.wasm crc.c

enum { MOST = 60000 };

static unsigned table[256];
static unsigned char text[MOST];

static void make_table(void) {
  for (unsigned byte = 0; byte < 256; byte++) {
    unsigned value = byte;
    for (int bit = 0; bit < 8; bit++)
      value = value & 1 ? value >> 1 ^ 0xEDB88320u : value >> 1;
    table[byte] = value;
  }
}

int crc(int length) {
  if (length < 0 || length > MOST)
    return 0;
  make_table();
  for (int at = 0; at < length; at++)
    text[at] = 'a' + at % 26;
  unsigned value = 0xFFFFFFFFu;
  for (int at = 0; at < length; at++)
    value = table[(value ^ text[at]) & 255] ^ value >> 8;
  return (int)~value;
}
