let crc = new WebAssembly.Instance(new WebAssembly.Module(readbuffer("crc"))).exports.crc;
print(crc(0), crc(26), crc(60000));
