'use strict';
// Runs the translated definitions on lines of standard input: `TO DEPTH SCALAR SYMBOLS VALUE 1 CATALOGUE|- INPUT|-`, the
// bytes in hexadecimal, as `yard batch` of bench/yard takes them. It answers a line each: `ok VALUES FORM OUTPUT`,
// `refused REASON PLACE OUTPUT`, `catalog REASON PLACE`; `BAD ..` where two definitions that must agree do not, and
// `ERROR ..` where a definition could not be computed. It follows the relation `HasVerdictFrom` of ion_transcode's Verdict
// from rule to rule; with `--by-item` the functions that compute the same item by item (ByItem) have to agree. With `--floats` the
// stream may have floats; the catalogue may not.
const { G, N, F, A, T, NIL, LIST, ARR } = require(process.env.DEFINITIONS);
const INPUT_LIMIT = 2 ** 48;
const strict = F(G.ion_meter_Rules$strict), profile = process.argv.includes('--floats') ? F(G.ion_meter_Rules$floats) : strict;
const unhex = (text) => (text === '-' ? [] : [...Buffer.from(text, 'hex')]);
const hex = (list) => Buffer.from(ARR(list).map(F)).toString('hex') || '-';

const refused = (fault, out) => ({ ok: false, reason: F(fault.p0).t, place: F(fault.p1), out });

// A value without what is not computed yet, to be compared.
function plain(x) {
  x = F(x);
  if (x === null || typeof x !== 'object') return typeof x === 'bigint' ? String(x) : x;
  if (x.t === '∷' || x.t === '[]') return ARR(x).map(plain);
  return Object.fromEntries(Object.keys(x).map((key) => [key, plain(x[key])]));
}

// At the end of the input: the user values of the path, and what is written of them.
function whole(outputs, catalog, items) {
  const path = G.ion_value_Path$path_of(LIST(items));
  if (path.t !== 'closed') return { bad: 'a container is open at the end' };
  const users = G.ion_symbols_Tree$user_tops(catalog, F(G.ion_symbols_Table$system), path.p0);
  if (users.t !== 'Some') return { bad: 'no user values where every item is without fault' };
  return { ok: true, count: F(N.length(users.p0)), out: A(outputs.whole_output, [users.p0]), users: users.p0 };
}

// From state to state: the raw reader's step, the step of user items, the writer's refusal.
function verdict(encoding, outputs, catalog, limits, bytes) {
  const items = [], mine = [];
  let state = A(encoding.start, [bytes]), users = F(G.ion_symbols_Users$at_start);
  const open = () => A(outputs.open_output, [LIST(mine)]);
  for (;;) {
    const step = A(encoding.step, [limits, state]);
    if (step.t === 'Ends') return whole(outputs, catalog, items);
    if (step.t === 'Stops') return refused(step, open());
    if (step.t === 'GoesOn') { state = step.p0; continue; }
    const user = G.ion_symbols_Users$user_step(catalog, limits.symbols, users, step.p0);
    if (user.t === 'Stops') return refused(user, open());
    if (user.t === 'GoesOn') users = user.p0;
    else {
      const why = A(outputs.refusal, [new T(() => LIST(mine)), user.p0]);
      if (why.t === 'Some') return refused(F(why.p0), open());
      users = user.p1;
      mine.push(user.p0);
    }
    items.push(step.p0);
    state = step.p1;
  }
}

function load(limits, bytes) {
  const encoding = F(G.ion_transcode_Forms$encoding_of(strict, G.ion_transcode_Forms$form_of(bytes)));
  const read = verdict(encoding, F(G.ion_transcode_Catalogues$as_catalog(limits)), NIL, limits, bytes);
  if (!read.ok) return read;
  const tables = G.ion_symbols_CatalogTrees$tables_of(read.users);
  const whole = G.ion_symbols_CatalogTrees$catalog_of(limits.symbols, read.users);
  if (tables.t !== 'Some' || whole.t !== 'Ok') return { bad: 'no tables where the catalogue is accepted' };
  if (JSON.stringify(plain(whole.p0)) !== JSON.stringify(plain(tables.p0))) return { bad: 'catalog_of and tables_of differ' };
  return { ok: true, tables: tables.p0 };
}

function run(limits, catalog, to, bytes) {
  const form = G.ion_transcode_Forms$form_of(bytes);
  const target = G.ion_transcode_Outputs$resolved(form, { t: to });
  if (target.t === 'None') return { ok: false, reason: 'SameForm', place: 0, out: NIL };
  const outputs = F(G.ion_transcode_Outputs$outputs_of(F(target.p0), limits));
  return { ...verdict(F(G.ion_transcode_Forms$encoding_of(profile, form)), outputs, catalog, limits, bytes), form: form.t.toLowerCase() };
}

function itemByItem(limits, catalog, to, bytes) {
  const said = G.ion_transcode_ByItem$verdict_for(profile, catalog, limits, { t: to }, bytes);
  const out = hex(G.ion_transcode_ByItem$output_for(profile, catalog, limits, { t: to }, bytes));
  return said.t === 'Accepted' ? `ok ${F(said.p0)} ${out}` : `refused ${F(said.p0).t} ${F(said.p1)} ${out}`;
}

function answer(line, byItem) {
  const [to, depth, scalar, symbols, value, , tables, input] = line.split(' ');
  const limits = { depth: +depth, scalar: +scalar, symbols: +symbols, value: +value, input: INPUT_LIMIT };
  const target = to[0].toUpperCase() + to.slice(1), bytes = LIST(unhex(input));
  let catalog = NIL;
  if (tables !== '-') {
    const read = load(limits, LIST(unhex(tables)));
    if (read.bad) return 'BAD ' + read.bad;
    if (!read.ok) return `catalog ${read.reason} ${read.place}`;
    catalog = read.tables;
  }
  const said = run(limits, catalog, target, bytes);
  if (said.bad) return 'BAD ' + said.bad;
  const short = said.ok ? `ok ${said.count} ` : `refused ${said.reason} ${said.place} `, out = hex(said.out);
  if (byItem && itemByItem(limits, catalog, target, bytes) !== short + out) return 'BAD item by item it is another answer';
  return short + (said.ok ? said.form + ' ' : '') + out;
}

const byItem = process.argv.includes('--by-item');
require('readline').createInterface({ input: process.stdin }).on('line', (line) => {
  let said;
  try { said = answer(line, byItem); } catch (fault) { said = 'ERROR ' + fault.message; }
  process.stdout.write(said + '\n');
});
