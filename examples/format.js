a - (b - c); x = - -1; if (a < !b) c; else "</p>";
