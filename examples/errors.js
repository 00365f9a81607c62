// Whatever a call throws is caught here, and `finally` runs in any case.
var report = [];
function attempt(action) {
  var line = '?';
  try {
    line = 'gave ' + action();
  } catch (e) {
    line = 'threw ' + (e.name ? e.name + ' ' + e.message : e);
  } finally {
    report[report.length] = line;
  }
}

attempt(function () { return 6 / 3; });
attempt(function () { return missing; });
attempt(function () { return undefined.member; });
attempt(function () { return attempt.member(); });
attempt(function () { throw 'a text'; });
attempt(function () { try { throw 1; } finally { return 'the last word'; } });
report + '';
