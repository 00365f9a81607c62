var o = {a: 1}, k = "a";
o.a = o[k] + 1;
o[k] = 3;
delete o.a;
[k in o, o instanceof Error, o.a] + "";
