let a = 6;
print("a", a * 7);
