// wasi.mjs PROGRAM ARGUMENT..: runs a program that was built for WASI, by node. It may open each file of this machine.
// Arguments that name one are made absolute.
import { WASI } from 'node:wasi';
import { existsSync, readFileSync } from 'node:fs';
import { resolve } from 'node:path';

const [program, ...given] = process.argv.slice(2);
const args = [program, ...given.map((it) => (existsSync(it) ? resolve(it) : it))];
const wasi = new WASI({ version: 'preview1', args, preopens: { '/': '/' } });
const module = new WebAssembly.Module(readFileSync(program));
process.exitCode = wasi.start(new WebAssembly.Instance(module, wasi.getImportObject()));
