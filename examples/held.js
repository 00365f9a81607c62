var o = {a: {b: 1}};
o.a.b += o.a.b += 2;
o.a.b;
