// Prints how many microseconds a call of rdf-canonize on a file takes: rate.js FILE CALLS
'use strict';
const fs = require('fs');
const {canonize, NQuads} = require('/usr/share/nodejs/rdf-canonize');

async function main(file, calls) {
  const text = fs.readFileSync(file, 'utf8');
  const call = () => canonize(NQuads.parse(text), {algorithm: 'URDNA2015'});
  for (let i = 0; i < 2000; i++) {
    await call();
  }
  const begin = process.hrtime.bigint();
  for (let i = 0; i < calls; i++) {
    await call();
  }
  console.log((Number(process.hrtime.bigint() - begin) / 1e3 / calls).toFixed(2));
}

main(process.argv[2], Number(process.argv[3]));
