var a = 7, b;
b = [a % 4, a << 2, ~a, -a, +"0x10", !a, typeof a, void a, a > 5 ? "more" : "less", (a, "last")];
a === 7 && b.length;
