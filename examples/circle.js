var a = [1];
a[1] = a;
"" + a;
