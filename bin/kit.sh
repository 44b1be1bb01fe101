# Sourced by the scripts, at the repository's top. Programs are compiled for x86-64; on another processor they run under the emulator of the Rattle kit.
kit=${RATTLE_HOME:-$(dirname "$(dirname "$(readlink -f "$(command -v rt)")")")}
machine=$(uname -m)
tools=$kit/on/$machine/toolchain
[ -d "$tools" ] || tools=$kit/toolchain
emulator=$tools/bin/qemu-x86_64
[ -x "$emulator" ] || emulator=

# A program that `prove` built, with the kit's C library.
run_built() { # NAME [WORD...]
    program=crates/$1/out/$1
    shift
    run_static "$tools/lib/ld-linux-x86-64.so.2" --library-path "$tools/lib" "$program" "$@"
}

# A program for x86-64 that finds its own C library.
run_static() { # PROGRAM [WORD...]
    ${emulator:+"$emulator"} "$@"
}

# Shows what a command says only where it fails.
quietly() { # COMMAND [WORD...]
    mkdir -p target
    "$@" >target/quiet.log 2>&1 </dev/null || { cat target/quiet.log >&2; exit 1; }
}

# In a crate's folder.
in_crate() { # NAME COMMAND [WORD...]
    (cd "crates/$1" && shift && "$@")
}

# Proves and builds programs, unless that has been done; each is tried on no input.
prove() { # NAME...
    for name; do
        [ -x "crates/$name/out/$name" ] || echo "proves and builds $name first; that takes some minutes" >&2
        quietly in_crate "$name" rt run
    done
}

# Proves the runner and writes it as an archive for C: target/staticlib/librunner.a.
archive() {
    [ -f target/staticlib/librunner.a ] || echo "proves and builds the runner first; that takes some minutes" >&2
    quietly in_crate runner_c rt lib
    mkdir -p target/staticlib
    cp crates/runner_c/out/librunner_c.a target/staticlib/librunner.a
}
