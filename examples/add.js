let add = new WebAssembly.Instance(new WebAssembly.Module(readbuffer("add"))).exports.add;
print(add(2147483647, 1), add(7), add(7, 8, 9));
