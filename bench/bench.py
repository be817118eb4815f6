#!/usr/bin/env python3
"""Measures the proved program on made applications, and beside it Ruby with Zeitwerk where both are installed.

Run by hand:   bench/bench.py [--program PATH] [--runs N] [--only WORD] [--no-instructions] [--keep FOLDER]

Each application is made in a temporary folder. A row is one command on one application: the least wall time of some runs,
that of Ruby doing the like, how many times as long Ruby took, and, where valgrind is installed, the instructions of both
and their ratio.
Ruby's work beside `tree` and beside `get` is the same: Zeitwerk sets up the application's roots and loads all of its files,
since `get` reads all files, and `tree` walks all folders. Ruby starts its interpreter in each run; the first row tells what
that takes. What it can't load (a syntax fault) is left out.
"""
import argparse
import os
import re
import shutil
import subprocess
import sys
import tempfile
import time
from pathlib import Path

HOME = Path(__file__).resolve().parent.parent
LIMIT = 4 * 1024 * 1024
CONTROLLER = 'class {}Controller\n  def self.index(params)\n    "{}"\n  end\nend\n'
ZEITWERK = """
require "zeitwerk"
loader = Zeitwerk::Loader.new
(Dir["app/*"] + Dir["app/*/concerns"] + Dir["lib"]).sort.each { |d| loader.push_dir(d) if File.directory?(d) }
if File.exist?("config/loader.conf")
  File.foreach("config/loader.conf") do |line|
    word, *rest = line.split
    case word
    when "inflect" then loader.inflector.inflect(rest[0] => rest[1])
    when "ignore" then loader.ignore(rest[0])
    when "collapse" then loader.collapse(rest[0])
    end
  end
end
loader.setup
loader.eager_load
"""


def letters(number):
    """A name of letters for a number: aa, ba, .."""
    name = ''
    while True:
        number, digit = divmod(number, 26)
        name += chr(97 + digit)
        if number == 0:
            return name + 'a'


def write(root, path, text):
    file = root / path
    file.parent.mkdir(parents=True, exist_ok=True)
    file.write_text(text)


def models(count):
    """Files in folders of twenty, each with the class that its path spells."""
    def make(root):
        for number in range(count):
            outer, inner = 'n' + letters(number // 20), 'm' + letters(number)
            text = f'module {outer.capitalize()}\n  class {inner.capitalize()}\n    def value\n      1 + 2\n    end\n'
            write(root, f'app/models/{outer}/{inner}.rb', text + '  end\nend\n')
    return make


def controllers(count):
    def make(root):
        for number in range(count):
            name = 'c' + letters(number)
            write(root, f'app/controllers/{name}_controller.rb', CONTROLLER.format(name.capitalize(), 'hi'))
    return make


def one_controller(text):
    return lambda root: write(root, 'app/controllers/big_controller.rb', text)


def long_text():
    frame = CONTROLLER.format('Big', '')
    return CONTROLLER.format('Big', 'x' * (LIMIT - len(frame)))


def many_lines():
    frame = CONTROLLER.format('Big', '')
    return '# a remark\n' * ((LIMIT - len(frame)) // 11) + frame


def chain(link, count):
    return 'class BigController\n  X = ' + link * count + '1\nend\n'


def long_names(count):
    """Paths of almost 255 bytes."""
    def make(root):
        for number in range(count):
            name = 'l' + letters(number)
            outer = (name * 60)[:110]
            write(root, f'app/models/{outer}/{name}_{outer}.rb',
                  f'module {outer.capitalize()}\n  class {name.capitalize()}{outer.capitalize()}\n  end\nend\n')
    return make


def configured(files, lines):
    """An application with inflections and ignored paths."""
    def make(root):
        models(files)(root)
        rows = [f'inflect acr{letters(n)} ACR{letters(n)}' for n in range(lines // 2)]
        rows += [f'ignore app/models/old{letters(n)}' for n in range(lines - len(rows))]
        write(root, 'config/loader.conf', '\n'.join(rows) + '\n')
    return make


GET_BIG = ['get', '/big/index']
GET_FIRST = ['get', '/ca/index']  # a controller that is not there: all files are read all the same
CASES = [
    ('no files', lambda root: None, ['tree']),
    ('100 files', models(100), ['tree']),
    ('1,000 files', models(1000), ['tree']),
    ('4,000 files', models(4000), ['tree']),
    ('400 long names', long_names(400), ['tree']),
    ('1,000 files, 1,000 lines of configuration', configured(1000, 1000), ['tree']),
    ('1,000 files, 10,000 lines of configuration', configured(1000, 10000), ['tree']),
    ('100 controllers', controllers(100), GET_FIRST),
    ('1,000 controllers', controllers(1000), GET_FIRST),
    ('4,000 controllers', controllers(4000), GET_FIRST),
    ('a text of 4 MiB', one_controller(long_text()), GET_BIG),
    ('4 MiB of remarks', one_controller(many_lines()), GET_BIG),
    ('1,000 operators in a chain', one_controller(chain('1 + ', 1000)), GET_BIG),
    ('1,000,000 operators in a chain', one_controller(chain('1 + ', 1000000)), GET_BIG),
    ('400,000 choices in a chain', one_controller(chain('1 ? 2 : ', 400000)), GET_BIG),
]


def least_time(command, root, runs):
    """The least time of the runs, and the exit status."""
    best, status = None, None
    for _ in range(runs):
        start = time.perf_counter()
        status = subprocess.run(command, cwd=root, stdout=subprocess.DEVNULL, stderr=subprocess.DEVNULL).returncode
        spent = time.perf_counter() - start
        best = spent if best is None else min(best, spent)
        if spent > 20:
            break
    return best, status


def instructions(command, root):
    """The instructions of a run as cachegrind counts them, or None."""
    with tempfile.NamedTemporaryFile() as out:
        tool = ['valgrind', '--tool=cachegrind', '--cache-sim=no', f'--cachegrind-out-file={out.name}']
        run = subprocess.run(tool + command, cwd=root, stdout=subprocess.DEVNULL, stderr=subprocess.PIPE, text=True)
    found = re.search(r'I\s+refs:\s+([\d,]+)', run.stderr)
    return int(found.group(1).replace(',', '')) if found else None


def has_zeitwerk():
    if not shutil.which('ruby'):
        return False
    return subprocess.run(['ruby', '-e', 'require "zeitwerk"'], stderr=subprocess.DEVNULL).returncode == 0


def cell(value, form):
    return '-' if value is None else form.format(value)


def measure(name, make, words, options, ruby):
    """One row of the table."""
    root = Path(tempfile.mkdtemp(dir=options.keep))
    try:
        make(root)
        program = [str(options.program)] + words
        own, status = least_time(program, root, options.runs)
        other = ruby_status = None
        if ruby:
            other, ruby_status = least_time(['ruby', '-e', ZEITWERK], root, options.runs)
        if ruby_status != 0:
            other = None
        count = ruby_count = None
        if options.instructions and own < 3:
            count = instructions(program, root)
            if other is not None and other < 3:
                ruby_count = instructions(['ruby', '-e', ZEITWERK], root)
        cells = [name, ' '.join(words), str(status), cell(own, '{:.3f}'), cell(other, '{:.3f}'),
                 cell(other / own if other and own else None, '{:.2f}'),
                 cell(count / 1e6 if count else None, '{:,.0f}'),
                 cell(ruby_count / 1e6 if ruby_count else None, '{:,.0f}'),
                 cell(ruby_count / count if ruby_count and count else None, '{:.2f}')]
        print('| ' + ' | '.join(cells) + ' |', flush=True)
    finally:
        if not options.keep:
            shutil.rmtree(root)


def main():
    reader = argparse.ArgumentParser(description='Measures the program on made applications.')
    reader.add_argument('--program', type=Path, default=HOME / 'crates/devserver/out/devserver')
    reader.add_argument('--runs', type=int, default=5, help='runs of each command, of which the least time counts')
    reader.add_argument('--only', default='', help='only the applications whose names have this word')
    reader.add_argument('--no-instructions', dest='instructions', action='store_false')
    reader.add_argument('--keep', help='a folder in which the applications are made and stay')
    options = reader.parse_args()
    options.program = options.program.resolve()
    if not os.access(options.program, os.X_OK):
        sys.exit(f'{options.program} is not built: run bin/devserver --version, or name one with --program')
    options.instructions = options.instructions and shutil.which('valgrind') is not None
    ruby = has_zeitwerk()
    if not ruby:
        print('Ruby with the gem zeitwerk is not installed: its columns stay empty', file=sys.stderr)
    print('| Application | Command | Status | Seconds | Ruby | Ratio | Instructions, millions | Ruby | Ratio |')
    print('|---|---|---|---|---|---|---|---|---|')
    for name, make, words in CASES:
        if options.only in name:
            measure(name, make, words, options, ruby)


if __name__ == '__main__':
    main()
