var list = [3, 1, 2], copy = cajita.copy(list), join = list.join, told;
list.push(5);
list.reverse();
try { join("-"); } catch (e) { told = e.message; }
[list.join(), copy.join(), list.slice(-2).join(), told, join.call([7, 8], "-")].join("; ");
