/* a */ var o = {'x': 0x10}; o.x;
