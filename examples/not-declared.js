var o = {x: y};
