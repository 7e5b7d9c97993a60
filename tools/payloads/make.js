'use strict';
// Makes real payloads: compiles generated scripts, and every *.js file of REALDIR, takes the code
// cache that V8 writes for each, cuts its header off and writes OUTDIR/NAME.payload, and
// OUTDIR/NAME.reserve where the cache carries reservations. OUTDIR/list.tsv gets a line for each:
// name, V8's version, length of the source, bytes of the payload. Runs on Node 12 and later; the
// engine is Node's own.
//
//     node tools/payloads/make.js OUTDIR [REALDIR]
//
// A name that ends in .ran is of a cache taken after the script has run. With SOURCES=1 in the
// environment only the sources are written, as OUTDIR/NAME.js, for an engine without Node.
const vm = require('vm'), fs = require('fs'), path = require('path'), v8 = require('v8');
const out = process.argv[2], real = process.argv[3];
fs.mkdirSync(out, { recursive: true });
const major = +process.versions.v8.split('.')[0];
const minor = +process.versions.v8.split('.')[1];
const ver = major * 100 + minor;
const list = [];

// Header forms, each field four bytes little-endian, whole header padded to the pointer size:
// up to 7.x  magic version source flags reservations length sumA sumB, then reservations
// 8.x        magic version source flags reservations length sum, then reservations
// 9.x..11.x  magic version source flags length sum
// 12.0 on    magic version source flags ro-sum length sum
function cut(buf) {
  const u = (o) => buf.readUInt32LE(o);
  if ((u(0) >>> 16) !== 0xc0de) throw new Error('no code cache');
  const al = /64/.test(process.arch) ? 8 : 4, pad = (n) => (n + al - 1) & -al;
  let head, len, res = null;
  if (ver < 900) {
    const n = u(16); len = u(20);
    const fixed = ver < 800 ? 32 : pad(28);
    res = buf.slice(fixed, fixed + 4 * n);
    head = pad(fixed + 4 * n);
  } else if (ver < 1200) { head = 24; len = u(16); } else { head = pad(28); len = u(20); }
  if (head + len !== buf.length) throw new Error('length ' + head + '+' + len + ' != ' + buf.length);
  return { payload: buf.slice(head, head + len), res };
}

function put(name, src, script) {
  const c = cut(script.createCachedData());
  fs.writeFileSync(path.join(out, name + '.payload'), c.payload);
  if (c.res) fs.writeFileSync(path.join(out, name + '.reserve'), c.res);
  list.push([name, process.versions.v8, src.length, c.payload.length].join('\t'));
}

function make(name, src, opt) {
  opt = opt || {};
  if (process.env.SOURCES) { fs.writeFileSync(path.join(out, name + '.js'), src); return; }
  try {
    if (opt.eager) v8.setFlagsFromString('--no-lazy');
    const s = new vm.Script(src, { filename: opt.file || (name + '.js') });
    if (opt.eager) v8.setFlagsFromString('--lazy');
    if (!opt.onlyRun) put(name, src, s);
    if (opt.run) {
      const sandbox = { console, out: [], setTimeout: () => 0, result: null };
      vm.createContext(sandbox);
      try { s.runInContext(sandbox, { timeout: 20000 }); } catch (e) { if (!opt.mayThrow) throw e; }
      put(name + '.ran', src, s);
    }
  } catch (e) {
    v8.setFlagsFromString('--lazy');
    console.error('skip ' + name + ': ' + e.message);
  }
}

const rep = (n, f) => { let r = ''; for (let i = 0; i < n; i++) r += f(i); return r; };

// --- tiny
make('empty', '');
make('one', '1');
make('tiny', 'var a = 1; a + 1;', { run: 1 });
make('hello', 'function hi(n) { return "hello " + n; } hi("world");', { run: 1 });

// --- many functions
make('funcs100', rep(100, (i) => `function f${i}(a,b){ var c = a + ${i}; return c * b - "${'s' + i}".length; }\n`) + rep(100, (i) => `f${i}(1,2);`), { run: 1 });
make('funcs2000', rep(2000, (i) => `function f${i}(a,b){ var c = a + ${i}; return c * b - "${'s' + i}".length; }\n`), { eager: 1 });
make('closures300', 'var o = {};\n' + rep(300, (i) => `o.k${i} = (x) => { let y = x + ${i}; return () => y + x; };\n`) + 'for (var k in o) o[k](2)();', { run: 1 });

// --- deep nesting, all compiled
function nestFn(d, i) { i = i || 0; return i === d ? 'return 0;' : `var v${i} = ${i}; function f${i}(a) { ${nestFn(d, i + 1)} } return f${i}(v${i}) + v${i};`; }
for (const d of [5, 20, 40, 80, 200]) make('nestfn' + d, `(function(){ ${nestFn(d)} })()`, { eager: 1, run: d <= 80 });
function nestArrow(d, i) { i = i || 0; return i === d ? '0' : `((a${i}) => { let q${i} = a${i} + "k${i}"; return ${nestArrow(d, i + 1)}; })`; }
for (const d of [30, 120]) make('nestarrow' + d, 'var z = ' + nestArrow(d), { eager: 1 });
// several deep branches that share functions and strings
make('nestwide', '(function(){' + rep(12, (j) => `function b${j}(){ ${nestFn(30)} }\n`) + '})()', { eager: 1 });
make('nestmany', rep(60, (j) => `function b${j}(){ ${nestFn(34)} }\n`), { eager: 1 });
const nestObj = (d) => { let s = '1'; for (let i = 0; i < d; i++) s = `{a${i % 7}:${s},b:${i},c:"t${i}"}`; return '(' + s + ')'; };
for (const d of [10, 60, 300]) make('nestobj' + d, 'var o = ' + nestObj(d), { run: 1 });
const nestArr = (d) => { let s = '1'; for (let i = 0; i < d; i++) s = `[${s},${i},"u${i}",${i}.5]`; return s; };
for (const d of [10, 60, 300]) make('nestarr' + d, 'var o = ' + nestArr(d), { run: 1 });
const nestTern = (d) => { let s = 'x'; for (let i = 0; i < d; i++) s = `(x > ${i} ? function t${i}(){ return ${s}; } : "w${i}")`; return s; };
make('nesttern', 'var x = 3; var r = ' + nestTern(70), { eager: 1 });
make('nestclass', (() => { let s = 'return 1;'; for (let i = 0; i < 45; i++) s = `class C${i} { #p = ${i}; static s = "st${i}"; m${i}(x) { ${s} } get g() { return this.#p; } } return new C${i}();`; return '(function(){' + s + '})()'; })(), { eager: 1 });

// --- deep and wide: deferred functions that the script's weak list names while they are pending
const nestFn2 = (d, i) => { i = i || 0; return i === d ? 'return 0;' : `var v${i} = ${i}; function f${i}(a) { ${nestFn2(d, i + 1)} } function h${i}(x){ return {a:[1,{b:x}],c:"k${i}"}; } return f${i}(v${i}) + h${i}(v${i});`; };
const nestFn3 = (d, i) => { i = i || 0; return i === d ? 'return 0;' : `class K${i} { #p${i} = [${i}]; m(a) { ${nestFn3(d, i + 1)} } static s(x){ return \`t\${x}\`; } } return new K${i}().m(1);`; };
make('x-many80', rep(20, (j) => `function b${j}(){ ${nestFn(80)} }\n`), { eager: 1 });
make('x-many150', rep(8, (j) => `function b${j}(){ ${nestFn(150)} }\n`), { eager: 1 });
make('x-wide2', rep(30, (j) => `function b${j}(){ ${nestFn2(60)} }\n`), { eager: 1 });
make('x-klass', rep(10, (j) => `function b${j}(){ ${nestFn3(40)} }\n`), { eager: 1 });
make('x-mix', '(function(){' + nestFn2(120) + '})()', { eager: 1 });
make('x-uneven', rep(60, (j) => `function b${j}(){ ${nestFn2(5 + (j * 7) % 90)} }\n`), { eager: 1 });
make('x-small', rep(3, (j) => `function b${j}(){ ${nestFn(12)} }\n`), { eager: 1 });

// --- strings
// one large string named from several functions: back-references into large-object space
make('lobackref', 'function a1(){ return "' + 'L'.repeat(200000) + '"; }\nfunction a2(){ return ["q1","q2",{z:1.5}].length + "' + 'L'.repeat(200000) + '"; }\nfunction a3(){ return "' + 'M'.repeat(150000) + '" + "' + 'L'.repeat(200000) + '"; }\n', { eager: 1 });
make('str1k', 'var s = "' + 'abcdefghij'.repeat(100) + '";');
make('str200k', 'var s = "' + 'abcdefghij'.repeat(20000) + '";');
make('str2byte', 'var s = "' + 'žluťoučký кůň 漢字 '.repeat(300) + '";');
make('str2byte300k', 'var s = "' + '漢字かな交じり文'.repeat(20000) + '";');
make('strmany', 'var s = [' + rep(5000, (i) => `"str number ${i} ${'x'.repeat(i % 37)}",`) + '];');
make('strlens', 'var s = [' + rep(300, (i) => `"${'y'.repeat(i)}",`) + '];');
make('strbig1m', 'var s = "' + 'q'.repeat(1 << 20) + '";');

// --- literals
make('ints20k', 'var a = [' + rep(20000, (i) => i + ',') + '];');
make('doubles20k', 'var a = [' + rep(20000, (i) => (i + 0.25) + ',') + '];');
make('doubles5', 'var a = [1.5,2.5,3.5,4.5,5.5]; var b = [0.1, 0.2]; var c = 3.14159; var d = [1.25,,2.5];');
make('holes', 'var a = [' + ','.repeat(500) + ']; var b = [1,' + ','.repeat(60) + '2]; var c = ["a",' + ','.repeat(20) + '"b"]; var d=[undefined,undefined,undefined,null,null,null,null,true,true,false,false];');
make('nulls', 'var a = [' + 'null,'.repeat(400) + '"x",' + 'undefined,'.repeat(17) + '"y",' + 'true,'.repeat(18) + '"z",' + 'false,'.repeat(19) + '"w",' + 'null,null' + '];');
make('obj1000', 'var o = {' + rep(1000, (i) => `key${i}: ${i % 3 ? i : '"v' + i + '"'},`) + '};', { run: 1 });
make('obj5000nested', 'var o = {' + rep(1000, (i) => `key${i}: {a:${i},b:[${i},${i}.5,"z"],c:null,d:{e:"q${i}"}},`) + '};');
make('bigints', 'var b = [1n, 123456789012345678901234567890n, -5n, ' + rep(50, (i) => (i + 1) + '00000000000000000000000n,') + '];');
make('switchjump', 'function sw(x){ switch(x){' + rep(200, (i) => `case ${i}: return "c${i}";`) + ' default: return 0; } } sw(5);', { run: 1 });
make('switchstr', 'function sw(x){ switch(x){' + rep(200, (i) => `case "k${i}": return ${i};`) + ' default: return 0; } } sw("k5");', { run: 1 });

// --- language features
make('features', `
class A { #x = 1; static #y = 2; static z = 3; get x() { return this.#x; } set x(v) { this.#x = v; } static m() { return A.#y; } *gen() { yield 1; yield* [2,3]; } async am() { await null; return 5; } async *ag() { yield 1; } ['comp' + 'uted']() { return super.toString(); } }
class B extends A { constructor() { super(); this.q = new.target; } toString() { return super.toString() + 'B'; } }
const re = [/a+b*/gi, /^(?:x|y)\\d{2,5}$/m, /(?<year>\\d{4})/u, /[\\u4e00-\\u9fff]+/];
function tag(s, ...v) { return s.raw.join('|') + v.join(); }
var t = tag\`one \${1} two \${2} three \\n\`; var t2 = \`x\${t}y\${t.length}\`;
var { a, b: { c = 5, ...rest } = {}, ...others } = { a: 1, b: { d: 4 }, e: 9 };
var [p, , q = 2, ...r] = [1, 2, 3, 4];
function* g() { try { yield 1; } finally { yield 2; } }
async function af() { for await (const x of (async function* () { yield 1; })()) { out.push(x); } }
label: for (let i = 0; i < 3; i++) { for (const k of [1, 2]) { if (k === 2) continue label; out.push(() => i + k); } }
try { null.x; } catch ({ message }) { out.push(message); } finally { out.push('fin'); }
with ({ wx: 1 }) { out.push(wx); }
var ev = eval('1+1'); (0, eval)('var geval = 3');
var fn = new Function('a', 'b', 'return a+b');
var sym = { [Symbol.iterator]: function* () { yield 1; }, get acc() { return 1; }, set acc(v) {}, __proto__: { inherited: true } };
var nn = sym && sym.acc ** 2; delete sym.acc; void 0; typeof sym; 'x' in sym;
new B().toString(); A.m(); [...new A().gen()]; new A().am(); af(); [...g()]; fn(1, 2); sym[Symbol.iterator]().next();
`, { run: 1 });
make('features2', `
var o = { f() { return this?.x?.y ?? 'dflt'; } }; var v = null; v ??= 5; v ||= 6; v &&= 7;
class P { static { this.s = 1; } #m() { return 1; } static has(x) { return #m in x; } accessorish = () => this.#m(); }
P.has(new P()); new P().accessorish(); o.f(); var big = 1_000_000; out.push(big, v);
`, { run: 1, mayThrow: 1 });
make('regexes', 'var r = [' + rep(300, (i) => `/a${i}(b|c)*[${i}x]+\\d{${i % 9}}/${['', 'g', 'i', 'gm', 'u', 'y'][i % 6]},`) + ']; for (var x of r) x.test("a1bcx");', { run: 1 });
make('templates', 'function t(s){ return s.raw; }\n' + rep(200, (i) => `t\`head ${i} \${${i}} mid \${"m${i}"} tail\`;\n`), { run: 1 });
make('classes200', rep(200, (i) => `class K${i} ${i % 3 ? 'extends K' + (i - 1) : ''} { constructor(){ ${i % 3 ? 'super();' : ''} this.f${i} = ${i}; } m${i}(){ return this.f${i}; } static s${i}(){ return "${i}"; } get p(){ return 1; } }\n`) + rep(200, (i) => `new K${i}().m${i}();`), { run: 1, eager: 1 });
make('generators', rep(100, (i) => `function* g${i}(n){ for (let k = 0; k < n; k++) { const x = yield k * ${i}; if (x) return x; } }\nfor (const v of g${i}(3)) out.push(v);\n`), { run: 1 });
make('asyncs', rep(100, (i) => `async function a${i}(n){ try { await n; return n + ${i}; } catch (e) { throw e; } finally { out.push(${i}); } }\na${i}(1);\n`), { run: 1 });
make('manyargs', rep(50, (i) => `function m${i}(${rep(i + 1, (k) => (k ? ',' : '') + 'p' + k)}){ return arguments.length + ${rep(i + 1, (k) => (k ? '+' : '') + 'p' + k)}; }\nm${i}();\n`), { run: 1 });
make('bigfn', 'function big(x){ ' + rep(3000, (i) => `x = x * ${i} + ${i}.5; if (x > ${i}) { x -= "q${i}".length; }\n`) + ' return x; } big(1);', { run: 1 });
make('manyvars', 'function mv(){ ' + rep(800, (i) => `let lv${i} = ${i}; `) + ' return () => ' + rep(800, (i) => (i ? '+' : '') + 'lv' + i) + '; } mv()();', { run: 1 });
make('trycatch', 'function tc(){ ' + rep(200, (i) => `try { if (${i} > 300) throw ${i}; } catch (e${i}) { out.push(e${i}); } finally { out.push("f${i}"); }\n`) + ' } tc();', { run: 1 });

// --- real files
if (real) for (const f of fs.readdirSync(real).sort()) {
  if (!f.endsWith('.js')) continue;
  const src = fs.readFileSync(path.join(real, f), 'utf8');
  const wrapped = '(function (exports, require, module, __filename, __dirname) { ' + src.replace(/^#!.*/, '') + '\n})';
  const base = 'real-' + f.slice(0, -3);
  make(base + '.lazy', wrapped, { file: f });
  // The text differs, else the compilation cache answers.
  make(base + '.eager', wrapped + ' // eager', { file: f, eager: 1 });
}
fs.writeFileSync(path.join(out, 'list.tsv'), list.join('\n') + '\n');
console.log(process.versions.v8, list.length, 'payloads');
