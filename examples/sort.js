let sorted = new WebAssembly.Instance(new WebAssembly.Module(readbuffer("sort"))).exports.sorted;
print(sorted(10, 0), sorted(10, 9), sorted(2000, 1000));
