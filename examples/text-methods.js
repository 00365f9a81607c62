var s = "how now";
[
  s.charAt(4) + s.charAt() + s.charAt(9), s.charCodeAt(1), s.charCodeAt(),
  s.indexOf("ow"), s.indexOf("ow", 2), s.indexOf("x"), s.lastIndexOf("ow"),
  s.slice(4), s.slice(-3, -1), s.substring(3, 0), s.substring(-1, 2),
  s.split(" ").length, s.split("").join("-"), s.split().length, s.concat("!", 1, null)
].join(", ");
