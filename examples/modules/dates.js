// Dates in whole numbers: a day is its number since the first of January 1970, by the calendar of Gregory, also for years before it.
var MONTHS = ["January", "February", "March", "April", "May", "June", "July", "August", "September", "October", "November", "December"];
var DAYS = ["Thursday", "Friday", "Saturday", "Sunday", "Monday", "Tuesday", "Wednesday"];

// The whole number of times that b goes into a, rounded down; b is above 0.
function quotient(a, b) {
  return (a - remainder(a, b)) / b;
}

function remainder(a, b) {
  return (a % b + b) % b;
}

function isLeap(year) {
  return year % 4 === 0 && (year % 100 !== 0 || year % 400 === 0);
}

function daysIn(month, year) {
  switch (month) {
    case 2:
      return isLeap(year) ? 29 : 28;
    case 4: case 6: case 9: case 11:
      return 30;
    default:
      return 31;
  }
}

// How many days the years before this one have had since the year 1.
function daysBefore(year) {
  var past = year - 1;
  return 365 * past + quotient(past, 4) - quotient(past, 100) + quotient(past, 400);
}

function numberOf(year, month, day) {
  if (month < 1 || month > 12 || day < 1 || day > daysIn(month, year)) {
    throw new RangeError("no such day: " + [year, month, day].join("-"));
  }
  var number = daysBefore(year) - daysBefore(1970) + day - 1;
  for (var past = 1; past < month; past++) {
    number += daysIn(past, year);
  }
  return number;
}

function dateOf(number) {
  // A year that isn't too late, whether the day lies before 1970 or behind it.
  var year = 1970 + Math.min(quotient(number, 365), quotient(number, 366)), month = 1;
  while (number >= daysBefore(year + 1) - daysBefore(1970)) {
    year++;
  }
  var day = number - (daysBefore(year) - daysBefore(1970));
  while (day >= daysIn(month, year)) {
    day -= daysIn(month, year);
    month++;
  }
  return cajita.freeze({year: year, month: month, day: day + 1});
}

function text(number) {
  var date = dateOf(number);
  return DAYS[remainder(number, 7)] + ", " + date.day + " " + MONTHS[date.month - 1] + " " + date.year;
}

say(text(0));
say(text(numberOf(2000, 2, 29)));
say(text(numberOf(2008, 6, 7) + 100));
say(text(numberOf(1969, 7, 20)));
say("from 1 March 1900 to 1 March 2000: " + (numberOf(2000, 3, 1) - numberOf(1900, 3, 1)) + " days");
try {
  numberOf(2100, 2, 29);
} catch (e) {
  say(e.message);
}

// Each seventh day of some years, there and back.
var same = 0;
for (var number = numberOf(1895, 1, 1); number < numberOf(1905, 1, 1); number += 7) {
  var date = dateOf(number);
  if (numberOf(date.year, date.month, date.day) === number) {
    same++;
  }
}
same + " of 522 days are the same there and back";
