// Each call opens another one.
function open() { open(); }
open();
