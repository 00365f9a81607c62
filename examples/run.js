var add = function (a, b) { return a + b; }; add(1, 2);
