let words = new WebAssembly.Instance(new WebAssembly.Module(readbuffer("words"))).exports.words;
print(words(100), words(5000), words(0 - 1));
