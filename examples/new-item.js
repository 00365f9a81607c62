var list = [7];
list[1] = 8;
list[list.length] = 9;
list[5] = 10;
