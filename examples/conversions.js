[
  Number(), Number("0x1F"), Number(" 12 "), Number(true), Number([7]),
  "'" + String() + "'", String(12), String(null), String([1, [2]]), String({}), String(Math.abs),
  Boolean(), Boolean(0), Boolean(""), Boolean("0"), Boolean({})
].join(" ");
