#!/usr/bin/env python3
"""Compares `yaml_read::read_yaml` with PyYAML, on YAML files and on changed copies of them.

`compare_yaml.py FOLDER COUNT FILE..`: unless it is there, a program that prints values is made in FOLDER, over copies of
this clone's crates, and is proved and built by `rt run`. It and PyYAML (`CBaseLoader`, so that scalars are texts) read each
file of at most 1,000,000 bytes and so many changed copies. Printed are the counts of each way in which they agree or
differ, and the shortest text of it. Differences have to be judged: `docs/YAML.md` names the known ones.
"""
import collections
import pathlib
import random
import shutil
import subprocess
import sys

import yaml

BASES = ['node_tree', 'yaml_lines', 'yaml_cells', 'yaml_read']
CRATES = 'node_tree:\nyaml_lines: node_tree\nyaml_cells: node_tree yaml_lines\nyaml_read: node_tree yaml_lines yaml_cells\nyaml_dump: node_tree yaml_lines yaml_read\n'
MAIN = r"""
//! Prints the values of the texts on standard input, each of which stands behind its length in four bytes.
#![tactic(auto)]

use node_tree::Text;
use std::alloc::AllocError;
use std::fmt::Write;
use std::io::{self, BufWriter, Read, Write as IoWrite};
use yaml_read::{YValue, read_yaml};

fn show_text(out: &mut String, sign: char, text: &Text) -> Result<(), AllocError> {
    out.push(sign)?;
    write!(out, "{}", text.as_str().len())?;
    out.push(':')?;
    out.push_str(text.as_str())
}

fn show(out: &mut String, value: &YValue) -> Result<(), AllocError> {
    match value {
        YValue::Null => out.push('~')?,
        YValue::Word(text) => show_text(out, 'w', text)?,
        YValue::Quoted(text) => show_text(out, 'q', text)?,
        YValue::Seq(items) => {
            out.push('[')?;
            for item in items.as_slice() {
                show(out, item)?;
            }
            out.push(']')?;
        }
        YValue::Map(entries) => {
            out.push('{')?;
            for entry in entries.as_slice() {
                show_text(out, 'k', &entry.0)?;
                show(out, &entry.1)?;
            }
            out.push('}')?;
        }
    }
    Ok(())
}

fn shown(rt: &HostRuntime, text: &[u8]) -> Result<String, AllocError> {
    let mut out = String::new(rt.alloc());
    if text.len() > 1_000_000 {
        return Ok(out);
    }
    match read_yaml(rt.alloc(), text) {
        Ok(value) => show(&mut out, &value)?,
        Err(fault) => write!(out, "!{fault:?}")?,
    }
    Ok(out)
}

fn split(bytes: &[u8]) -> Option<(&[u8], &[u8])> {
    match bytes {
        [a, b, c, d, rest @ ..] => {
            let len = ((*a as usize * 256 + *b as usize) * 256 + *c as usize) * 256 + *d as usize;
            Some((rest.get(..len)?, rest.get(len..)?))
        }
        _ => None,
    }
}

fn main(rt: HostRuntime) -> io::Result<()> {
    let mut input: Vec<u8> = Vec::new(rt.alloc());
    let _count = rt.stdin().read_to_end(&mut input)?;
    let mut writer = BufWriter::new(rt.alloc(), io::writer(&rt))?;
    let mut left = input.as_slice();
    for _ in 0..u64::MAX {
        let Some((text, more)) = split(left) else {
            break;
        };
        left = more;
        let out = shown(&rt, text)?;
        let mut line = String::new(rt.alloc());
        write!(line, "{} ", out.len())?;
        writer.write_all(line.as_bytes())?;
        writer.write_all(out.as_bytes())?;
    }
    writer.flush()
}
"""
SIGNS = b' |\t|\n|:|: |-|- |#| #|\'|"|\\|[|]|,|>|+|?|a|{|&|*|!|...|---|\\\n|, |] |? |\xc3\xa9'.split(b'|') + [b'|']


def program(folder):
    """The program, made if it isn't there."""
    built = folder / 'crates/yaml_dump/out/yaml_dump'
    if not built.exists():
        clone = pathlib.Path(__file__).resolve().parent.parent
        for name in BASES:
            shutil.copytree(clone / 'crates' / name, folder / 'crates' / name, ignore=shutil.ignore_patterns('out'))
        source = folder / 'crates/yaml_dump/src'
        source.mkdir(parents=True)
        (source / 'main.rt').write_text(MAIN.lstrip())
        (folder / 'crates.txt').write_text(CRATES)
        subprocess.run(['git', 'init', '-q', folder], check=True)
        subprocess.run(['rt', 'run'], cwd=source.parent, stdin=subprocess.DEVNULL, check=True)
    return built


def ours(built, texts):
    """What `read_yaml` says of each text."""
    written = b''.join(len(text).to_bytes(4, 'big') + text for text in texts)
    out = subprocess.run([built], input=written, stdout=subprocess.PIPE, check=True).stdout
    at = 0
    while at < len(out):
        start = out.index(b' ', at) + 1
        at = start + int(out[at:start])
        yield out[start:at]


def show_text(sign, text):
    """A text behind its kind and length."""
    return b'%s%d:%s' % (sign, len(text.encode()), text.encode())


def show(node):
    """A node of PyYAML as the program prints a value."""
    if node is None or (node.value == '' and not node.style):
        return b'~'
    if isinstance(node, yaml.ScalarNode):
        return show_text(b'q' if node.style else b'w', node.value)
    if isinstance(node, yaml.SequenceNode):
        return b'[' + b''.join(map(show, node.value)) + b']'
    keys = [key.value for key, _ in node.value]
    if not all(isinstance(key, yaml.ScalarNode) for key, _ in node.value):
        raise ValueError('a key that is no scalar')
    if len(set(keys)) < len(keys):
        raise ValueError('a repeated key')
    return b'{' + b''.join(show_text(b'k', key.value) + show(value) for key, value in node.value) + b'}'


def way(text, answer):
    """How the two readers agree or differ on a text."""
    fault = answer[1:].split(b',')[0].decode().split('(')[-1] if answer.startswith(b'!') else None
    try:
        value = show(yaml.compose(text, Loader=yaml.CBaseLoader))
    except (ValueError, yaml.YAMLError) as error:
        cause = str(getattr(error, 'problem', error))
        return 'both refuse' if fault else f'only PyYAML refuses: {cause}'
    if fault:
        return f'only read_yaml refuses: {fault}'
    return 'the same value' if value == answer else 'values differ'


def changed(choose, text):
    """A text with a line or a few bytes changed."""
    lines = text.split(b'\n')
    at = choose.randrange(len(lines))
    line = lines[at]
    column = choose.randrange(len(line) + 1)
    sign = choose.choice(SIGNS)
    lines[at:at + 1] = choose.choice([
        [], [line, line], [b' ' + line], [line.removeprefix(b' ')], [line[:column] + sign + line[column:]],
        [line[:column] + sign + line[column + 1:]], [line[:column] + line[column + 1:]], [line[:column]]])
    if choose.random() < 0.1:
        lines.insert(choose.randrange(len(lines) + 1), line)
    return b'\n'.join(lines)


def main():
    built = program(pathlib.Path(sys.argv[1]).resolve())
    texts = [path.read_bytes() for path in map(pathlib.Path, sys.argv[3:]) if path.stat().st_size <= 1_000_000]
    choose = random.Random(7)
    texts += [changed(choose, text) for text in texts for _ in range(int(sys.argv[2]))]
    texts = [text for text in texts if len(text) <= 1_000_000]
    ways = collections.defaultdict(list)
    for text, answer in zip(texts, ours(built, texts)):
        ways[way(text, answer)].append(text)
    for name, found in sorted(ways.items(), key=lambda entry: -len(entry[1])):
        print(len(found), name, min(found, key=len)[:200])


main()
