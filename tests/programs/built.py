"""What the tests of the calls are built of: the archive of the proved calls, and programs linked with it, under target/calls."""
import os
import pathlib
import shutil
import subprocess
import sys

TOP = pathlib.Path(__file__).resolve().parent.parent.parent
BUILD = TOP / 'target' / 'calls'
CALLS = TOP / 'crates' / 'calls'
ARCHIVE = CALLS / 'out' / 'libcalls.a'


def run(*command, **options):
    """What a command prints. A failure is shown, and ends the test."""
    if not shutil.which(str(command[0])):
        sys.exit(f'{command[0]} is not on the PATH, and this test needs it')
    done = subprocess.run(list(map(str, command)), stdout=subprocess.PIPE, stderr=subprocess.PIPE, **options)
    if done.returncode:
        sys.stdout.flush()
        sys.stderr.buffer.write(done.stdout + done.stderr)
        sys.exit(f'{" ".join(map(str, command[:3]))} ..: failed')
    return done.stdout


def archive():
    """crates/calls/out/libcalls.a: it is proved and written anew where a source of it is younger."""
    BUILD.mkdir(parents=True, exist_ok=True)
    sources = [TOP / 'crates.txt', TOP / 'toolchain']
    sources += [path for part in ('src', 'specs', 'proofs') for path in TOP.glob(f'crates/*/{part}/**/*')]
    if not ARCHIVE.exists() or ARCHIVE.stat().st_mtime < max(path.stat().st_mtime for path in sources):
        run('rt', 'lib', cwd=CALLS)
    return ARCHIVE


def rust(source, name, *options, **environment):
    """A program of Rust, linked with the archive; what it takes from the environment as it is compiled is given by name."""
    archive()
    given = {**os.environ, **{key.upper(): str(value) for key, value in environment.items()}}
    run('rustc', '--edition', '2021', '-D', 'warnings', '-L', ARCHIVE.parent, *options, TOP / source, '-o', BUILD / name, env=given)
    return BUILD / name
