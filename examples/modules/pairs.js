// A reader of settings: `name=value;name=value`, with a backslash before a sign that stands for itself. It gives a record, or throws with the
// place where the text is no list of settings.
function read(text) {
  var at = 0;

  function fault(message) {
    throw new RangeError(message + " at " + at);
  }

  // The text up to one of the two ends, without backslashes.
  function part(end, other) {
    var units = [];
    while (at < text.length) {
      var unit = text.charAt(at);
      if (unit === end || unit === other) {
        break;
      }
      if (unit === "\\") {
        at++;
        if (at === text.length) {
          fault("nothing behind a backslash");
        }
        unit = text.charAt(at);
      }
      units.push(unit);
      at++;
    }
    return units.join("");
  }

  var settings = {};
  while (at < text.length) {
    var name = part("=", ";");
    if (name === "") {
      fault("no name");
    }
    if (text.charAt(at) !== "=") {
      fault("no value");
    }
    if (name in settings) {
      fault("a second " + name);
    }
    at++;
    settings[name] = part(";", ";");
    at++;
  }
  return settings;
}

// The settings as a text again, in the order in which they stand in the record.
function written(settings) {
  function escaped(text) {
    return text.split("\\").join("\\\\").split(";").join("\\;").split("=").join("\\=");
  }
  var parts = [];
  for (var name in settings) {
    parts.push(escaped(name) + "=" + escaped(settings[name]));
  }
  return parts.join(";");
}

function told(text) {
  try {
    var settings = read(text);
    return cajita.keys(settings).length + " settings, " + (written(settings) === text ? "the same again" : written(settings));
  } catch (e) {
    return e.message;
  }
}

var lines = ["size=12;colour=red", "rule=a\\=b\\;c;path=x\\\\y", "size=12;", "", "size", "a=1;=2", "a=1;b=2;a=3", "a=\\"];
for (var i = 0; i < lines.length; i++) {
  say(lines[i] + ": " + told(lines[i]));
}
read("size=12;colour=red").colour;
