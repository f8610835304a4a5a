let base = 1000;
let rate = 3;
print("interest", base * rate);
print("left", base - (base - rate) * 2);
print(base + " at " + rate);
print(base * "rate");
print("never printed");
