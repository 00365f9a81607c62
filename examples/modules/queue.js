// A queue of two stacks, and a counter in a shop that serves its customers by it. Putting and taking cost the same however long the queue is,
// where `shift` of an array moves all items.
function newQueue() {
  var behind = [], front = [];

  function turned() {
    while (behind.length > 0) {
      front.push(behind.pop());
    }
  }

  return {
    put: function (item) { behind.push(item); },
    take: function () {
      if (front.length === 0) {
        turned();
      }
      if (front.length === 0) {
        throw new RangeError("the queue is empty");
      }
      return front.pop();
    },
    size: function () { return behind.length + front.length; }
  };
}

// Every other minute a customer comes, and each wants some minutes of the one who serves.
var queue = newQueue(), wishes = [3, 1, 5, 2, 4, 1], served = [], free = 0, longest = 0;
for (var minute = 0; minute < 24; minute++) {
  if (minute % 2 === 0 && minute / 2 < wishes.length) {
    queue.put({number: minute / 2 + 1, came: minute, wants: wishes[minute / 2]});
  }
  longest = Math.max(longest, queue.size());
  if (minute >= free && queue.size() > 0) {
    var customer = queue.take();
    free = minute + customer.wants;
    served.push(customer.number + " waited " + (minute - customer.came));
  }
}

var ended;
try {
  queue.take();
} catch (e) {
  ended = e.name + ": " + e.message;
}
say(served.join(", "));
"at most " + longest + " in the queue; " + ended;
