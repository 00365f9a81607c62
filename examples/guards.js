var o = ___.initializeMap(["a", 1]), keys = "";
___.setPub(o, "b", ___.readPub(o, "a") + 1);
for (var k in o) keys += k + " ";
[keys, o.a_canRead___, o.a_canSet___, o.b_canRead___, o.b_canSet___, ___.readPub(o, "a_canRead___")].join("; ");
