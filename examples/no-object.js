var a; a.x;
