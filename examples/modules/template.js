// A filler of templates: `{name}` stands for a value, `{each list}` .. `{end}` for what is between them once for each item, and `{if name}` ..
// `{end}` for it where the value isn't empty. A template is read once into functions, and filled as often as one likes.
function escaped(text) {
  var signs = [["&", "&amp;"], ["<", "&lt;"], [">", "&gt;"]];
  for (var i = 0; i < signs.length; i++) {
    text = text.split(signs[i][0]).join(signs[i][1]);
  }
  return text;
}

// What a name, with points as in `shop.name`, stands for.
function looked(data, name) {
  var keys = name.split(".");
  for (var i = 0; i < keys.length; i++) {
    if (!cajita.isRecord(data) || !(keys[i] in data)) {
      throw new RangeError("no " + name);
    }
    data = data[keys[i]];
  }
  return data;
}

function isEmpty(value) {
  return value === "" || value === 0 || value === false || value === null || cajita.isArray(value) && value.length === 0;
}

function compiled(template) {
  var pieces = template.split("{"), at = 0;

  function text(fixed) {
    return function () { return fixed; };
  }

  function value(name) {
    return function (data) { return escaped("" + looked(data, name)); };
  }

  function each(name, inner) {
    return function (data) {
      var items = looked(data, name), result = "";
      for (var i = 0; i < items.length; i++) {
        // The item's own values hide those around it.
        var own = cajita.copy(data);
        own.number = i + 1;
        for (var key in items[i]) {
          own[key] = items[i][key];
        }
        result += inner(own);
      }
      return result;
    };
  }

  function choice(name, inner) {
    return function (data) { return isEmpty(looked(data, name)) ? "" : inner(data); };
  }

  // The parts up to the end, or up to an `{end}`.
  function sequence(isInner) {
    var parts = [text(isInner ? pieces[at].slice(pieces[at].indexOf("}") + 1) : pieces[at])];
    while (++at < pieces.length) {
      var close = pieces[at].indexOf("}"), words = pieces[at].slice(0, close).split(" ");
      if (close < 0) {
        throw new Error("an open brace");
      }
      if (words[0] === "end") {
        break;
      }
      parts.push(words[0] === "each" ? each(words[1], sequence(true)) : words[0] === "if" ? choice(words[1], sequence(true)) : value(words[0]));
      if (at === pieces.length) {
        throw new Error("no end of " + words.join(" "));
      }
      parts.push(text(pieces[at].slice(pieces[at].indexOf("}") + 1)));
    }
    return function (data) {
      var result = "";
      for (var i = 0; i < parts.length; i++) {
        result += parts[i](data);
      }
      return result;
    };
  }

  return sequence(false);
}

function told(template, data) {
  try {
    return compiled(template)(data);
  } catch (e) {
    return e.name + ": " + e.message;
  }
}

var order = cajita.freeze({
  shop: {name: "Tea & Co"}, customer: "Mark <m>", note: "",
  goods: [{what: "assam", grams: 250}, {what: "sencha", grams: 100}]
});
say(told("{customer} at {shop.name}", order));
say(told("{each goods}{number}. {what}, {grams} g; {end}{if note}note: {note}{end}thank you", order));
say(told("{each goods}{if note}never{end}[{what} for {customer}]{end}", order));
say(told("{each goods}{what}", order));
say(told("{price}", order));
told("{a", {}) + "; " + told("plain", {});
