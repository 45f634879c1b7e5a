#!/usr/bin/env python3
"""Measures what the store of kept answers costs: processor time for each pair, and the memory of it all.

    tools/measure_store.py BUILD [FILES [PATTERNS]]

BUILD is a command that builds the program of a crate with optimisation, called at the top of a checkout as `BUILD CRATE OUT`. A
copy of the crates that are needed gets one more, a program that fills a store: files of 3 KB in Python, read and cut at their
statements, each with its patterns, of which 1 in 50 has an answer that is not empty. Files and patterns are 10,000 and 1,000
where nothing else is said.
"""
import os
import re
import shutil
import subprocess
import sys
import tempfile

NEEDED = ['node_tree', 'grammar', 'lexing', 'py_lex', 'py_expr', 'py_suite', 'py_stmt', 'piece_form', 'piece_store']

PROGRAM = r'''//! Fills a store, and asks it.
#![tactic(auto)]

use node_tree::{Bytes, List, Memory, Shift};
use piece_form::{KnownNames, PatternKey, Piece, PieceKey};
use piece_store::{Answer, Row, Store};
use std::alloc::Global;
use std::marker::Model;
use std::time::CpuClock;

#[derive(Drop)]
struct Found {
    places: Vec<u32>,
}

impl Model for Found {
    ghost use Rattle.std.specs.Prelude.{List, ℕ};

    ghost Value = { List ℕ };

    ghost view = { λ f. f.places.items };
}

impl Answer for Found {
    ghost use Rattle.std.specs.Prelude.{[]};

    ghost empty = { [] };

    fn is_empty(&self) -> bool {
        self.places.is_empty()
    }
}

type Kept = Store<PieceKey, PatternKey, Found>;

// The processor time that was used, in nanoseconds.
fn now(rt: &HostRuntime) -> Result<u64, Memory> {
    match rt.process_cpu_time() {
        Ok(time) => Ok(time.as_nanos() as u64),
        Err(_) => Err(Memory),
    }
}

fn text(alloc: Global, file: u32) -> Result<String, Memory> {
    let mut text = String::new(alloc);
    let mut at = 0u32;
    while text.len() < 3000 {
        let n = file.wrapping_mul(31).wrapping_add(at) % 9973;
        let kind = at % 4;
        let part = if kind == 0 {
            format!(in alloc; "def handle_{file}_{at}(request, name=None):\n    value = request.args.get(\"key_{n}\")\n    if value is None:\n        return render(\"error.html\", code={n})\n    return client.send(value, retries={kind})\n\n\n")?
        } else if kind == 1 {
            format!(in alloc; "LIMIT_{at} = compute({n}, \"{file}\", default=[{n}, {kind}])\n")?
        } else if kind == 2 {
            format!(in alloc; "class Model_{file}_{at}(Base):\n    table = \"t_{n}\"\n\n    def save(self, *args, **kwargs):\n        self.check(args)\n        return super().save(*args, **kwargs)\n\n\n")?
        } else {
            format!(in alloc; "register(\"{n}\", handle_{file}, order={at})\n")?
        };
        text.push_str(part.as_str())?;
        at += 1;
    }
    Ok(text)
}

fn pieces(alloc: Global, text: &str) -> Result<Vec<PieceKey>, Memory> {
    let mut keys = Vec::new(alloc);
    let Ok(root) = py_stmt::read_module(alloc, text) else {
        return Err(Memory);
    };
    for kid in root.kids.as_slice() {
        let from = kid.span.from;
        let piece = Piece {
            lang: node_tree::Lang::Python,
            bytes: Bytes::from_slice(alloc, &text.as_bytes()[from as usize..kid.span.to as usize])?,
            tree: kid.copy_shifted(Shift::Earlier(from))?,
            known: KnownNames::of(List::new(alloc)),
        };
        keys.push(PieceKey::of(alloc, &piece)?)?;
    }
    Ok(keys)
}

fn path(alloc: Global, file: u32) -> Result<String, Memory> {
    Ok(format!(in alloc; "src/package_{}/module_{file}.py", file % 100)?)
}

fn fill(alloc: Global, row: &mut Row<Found>, patterns: u32, at: u32) -> Result<(), Memory> {
    for number in 0..patterns {
        if (number + at) % 50 == 0 {
            let mut places = Vec::new(alloc);
            places.push(at)?;
            row.keep(number, Some(Found { places }))?;
        } else {
            row.keep(number, None)?;
        }
    }
    Ok(())
}

fn fill_empty(row: &mut Row<Found>, patterns: u32) -> Result<(), Memory> {
    for number in 0..patterns {
        row.keep(number, None)?;
    }
    Ok(())
}

fn looked(row: &Row<Found>, patterns: u32) -> u64 {
    let mut found = 0;
    for number in 0..patterns {
        if row.look(number).is_some() {
            found += 1;
        }
    }
    found
}

fn marked(row: &mut Row<Found>, patterns: u32) -> u64 {
    let mut found = 0;
    for number in 0..patterns {
        if row.mark(number) {
            found += 1;
        }
    }
    found
}

fn run(rt: &HostRuntime, files: u32, patterns: u32) -> Result<(), Memory> {
    let alloc = rt.alloc();
    let mut store: Kept = Store::new(alloc, Found { places: Vec::new(alloc) });
    for number in 0..patterns {
        let mut numbers = Vec::new(alloc);
        numbers.push(number)?;
        let _ = store.number(PatternKey { numbers })?;
    }
    let mut keeping = 0u64;
    let mut giving = 0u64;
    let mut count = 0u64;
    let mut source = 0u64;
    for file in 0..files {
        let text = text(alloc, file)?;
        source += text.len() as u64;
        let path = path(alloc, file)?;
        for key in pieces(alloc, text.as_str())? {
            let mut row = Row::new(alloc);
            let start = now(rt)?;
            if count % 4 == 0 {
                fill(alloc, &mut row, patterns, file)?;
            } else {
                fill_empty(&mut row, patterns)?;
            }
            let time = now(rt)?.saturating_sub(start);
            keeping += time;
            let start = now(rt)?;
            store.give(path.as_str(), key, row)?;
            let time = now(rt)?.saturating_sub(start);
            giving += time;
            count += 1;
        }
    }
    let _ = println!(rt; "files {files} bytes {source} pieces {count} pairs {}", count * patterns as u64);
    let _ = println!(rt; "keep {keeping} give {giving}");
    let start = now(rt)?;
    store.turn();
    let time = now(rt)?.saturating_sub(start);
    let _ = println!(rt; "turn_all_met_singly {}", time);
    let mut looking = 0u64;
    let mut marking = 0u64;
    let mut taking = 0u64;
    let mut found = 0u64;
    for file in 0..files {
        let text = text(alloc, file)?;
        let path = path(alloc, file)?;
        for key in pieces(alloc, text.as_str())? {
            let start = now(rt)?;
            let Some(mut row) = store.take(path.as_str(), &key) else { return Err(Memory) };
            let time = now(rt)?.saturating_sub(start);
            taking += time;
            let start = now(rt)?;
            found += looked(&row, patterns);
            let time = now(rt)?.saturating_sub(start);
            looking += time;
            let start = now(rt)?;
            found += marked(&mut row, patterns);
            let time = now(rt)?.saturating_sub(start);
            marking += time;
            store.give(path.as_str(), key, row)?;
        }
    }
    let _ = println!(rt; "look {looking} mark {marking} take {taking} found {found}");
    let start = now(rt)?;
    let mut handed = 0u64;
    for pair in store.pairs() {
        handed += pair.path.len().min(1) as u64;
    }
    let time = now(rt)?.saturating_sub(start);
    let _ = println!(rt; "hand_out {time} handed {handed}");
    store.turn();
    let start = now(rt)?;
    for file in 0..files {
        let path = path(alloc, file)?;
        store.mark_all(path.as_str());
    }
    let time = now(rt)?.saturating_sub(start);
    let _ = println!(rt; "mark_all_paths {}", time);
    let start = now(rt)?;
    store.turn();
    let time = now(rt)?.saturating_sub(start);
    let _ = println!(rt; "turn_all_paths_marked {}", time);
    Ok(())
}

fn main(rt: HostRuntime) {
    let _ = run(&rt, FILES, PATTERNS);
}
'''


def main():
    if len(sys.argv) < 2:
        sys.exit(__doc__)
    build = os.path.abspath(sys.argv[1])
    files = int(sys.argv[2]) if len(sys.argv) > 2 else 10_000
    patterns = int(sys.argv[3]) if len(sys.argv) > 3 else 1_000
    top = os.path.join(os.path.dirname(os.path.abspath(__file__)), '..')
    with tempfile.TemporaryDirectory() as folder:
        lines = open(os.path.join(top, 'crates.txt')).read().splitlines()
        kept = [line for line in lines if line.split(':')[0] in NEEDED]
        kept.append('store_speed: node_tree py_stmt piece_form piece_store')
        open(os.path.join(folder, 'crates.txt'), 'w').write('\n'.join(kept) + '\n')
        for name in NEEDED:
            shutil.copytree(os.path.join(top, 'crates', name), os.path.join(folder, 'crates', name), ignore=shutil.ignore_patterns('out'))
        source = os.path.join(folder, 'crates', 'store_speed', 'src')
        os.makedirs(source)
        program = PROGRAM.replace('FILES', str(files)).replace('PATTERNS', str(patterns))
        open(os.path.join(source, 'main.rt'), 'w').write(program)
        out = os.path.join(folder, 'store_speed')
        subprocess.run([build, 'store_speed', out], cwd=folder, check=True)
        run = subprocess.Popen([out], stdout=subprocess.PIPE, text=True)
        said = run.stdout.read()
        peak = os.wait4(run.pid, 0)[2].ru_maxrss
    print(said)
    numbers = {word: int(number) for word, number in re.findall(r'(\w+) (\d+)', said)}
    pairs = numbers['pairs']
    for word in ('keep', 'look', 'mark', 'hand_out'):
        print(f'{word}: {numbers[word] / pairs / 1000:.4f} us a pair')
    for word in ('give', 'take'):
        print(f'{word}: {numbers[word] / numbers["pieces"] / 1000:.2f} us a piece')
    print(f'peak memory: {peak / 1024:.0f} MB')


if __name__ == '__main__':
    main()
