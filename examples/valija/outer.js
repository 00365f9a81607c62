if (typeof total === 'undefined') { total = 0; }
function add(n) { total += n; return total; }
add(2);
add(3);
for (step = 0; step < 2; step++) { add(step); }
total + ' after ' + step;
