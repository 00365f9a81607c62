___.loadModule(function (___, IMPORTS___) {
  var say = ___.readImport(IMPORTS___, "say"), cajita = ___.readImport(IMPORTS___, "cajita");
  function told(f) {
    try { return "" + f(); } catch (e) { return e.message; }
  }
  function show(what, value, key) {
    say([
      what,
      told(function () { return ___.readPub(value(), key); }),
      told(function () { return ___.setPub(value(), key, 1); }),
      told(function () { return ___.deletePub(value(), key); }),
      told(function () { return ___.inPub(key, value()); }),
      told(function () { return ___.keysPub(value()).join(" "); }),
      told(function () { return ___.asSimpleFunc(value())(); })
    ].join(", "));
  }
  function one(v) { return function () { return v; }; }
  function record() { return ___.initializeMap(["a", 0, "b", 0]); }
  function array() { return ___.initializeArray([7, 8]); }
  show("undefined.a", one(undefined), "a");
  show("null.a", one(null), "a");
  show("true.a", one(true), "a");
  show("5.a", one(5), "a");
  show("text.length", one("ab"), "length");
  show("record.a", record, "a");
  show("record.c", record, "c");
  show("record.a__", record, "a__");
  show("frozen.a", function () { return cajita.freeze(record()); }, "a");
  show("array.1", array, "1");
  show("array.2", array, "2");
  show("array.3", array, "3");
  show("array.length", array, "length");
  show("frozen.1", function () { return cajita.freeze(array()); }, "1");
  show("error.message", one(Error("m")), "message");
  show("closure.a", one(___.func(function () { return "called"; })), "a");
  show("Number.a", one(Number), "a");
  show("method.call", one(___.readPub("ab", "charAt")), "call");
  show("say.a", one(say), "a");
  show("cajita.a", one(cajita), "a");
  show("Math.abs", one(Math), "abs");
});
