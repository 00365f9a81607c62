function counter() {
  var count = 0;
  return cajita.freeze({
    next: function () { return ++count; },
    reset: function () { count = 0; }
  });
}
var one = counter(), two = counter();
one.next();
two.next();
one.reset();
one.next() + " " + two.next();
