var list = [Math, say, undefined];
typeof say + " " + list[0].abs;
