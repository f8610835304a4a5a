let fib = new WebAssembly.Instance(new WebAssembly.Module(readbuffer("fib"))).exports.fib;
let through = new WebAssembly.Instance(new WebAssembly.Module(readbuffer("fib"))).exports.through;
print(fib(20), through(10));
