"""Makes the module of a library without a proof, optimised as a proved one is.

A trial runs a program. So the library is made one, with a `main` that calls each function that the library exports,
since a trial keeps only what is called; the module that its compiler is handed is kept (tools/keeping.py), and made that
of a library (tools/release.py)."""
import os
import re
import shutil

import keeping
import release

CALLERS = {
    "mesh_page": """
fn main(rt: HostRuntime) {
    let mut len = 0;
    exports::mesh_page_run(rt.alloc(), 0, false, b"", &mut [], &mut len);
}
""",
    "aodv_c": """
fn main(rt: HostRuntime) {
    let mut h = handle::Handle::empty();
    let mut o = outcome::Outcome {
        took: 0, from: 0, dest: 0, delivered: false, lost: false, broken: false, broke: 0, cast: 0, to_len: 0,
        to: [0; 200], packet_len: 0, packet: [0; 1604], body_len: 0, body: [0; 512],
    };
    let mut l = outcome::Addrs { len: 0, addrs: [0; 200] };
    let mut r = outcome::Row { dsn: 0, known: false, valid: false, hops: 0, next: 0, pre_len: 0, pre: [0; 200] };
    let mut n: usize = 0;
    let mut k: u32 = 0;
    let mut b = false;
    exports::aodv_version();
    exports::aodv_new(rt.alloc(), &mut h, &[1, 2], 1, 1, 0);
    exports::aodv_hear(rt.alloc(), &mut h, 2, b"x");
    exports::aodv_give(rt.alloc(), &mut h, 2, b"x");
    exports::aodv_turn(&mut h, &[2], &mut o);
    exports::aodv_send(&mut h, &[2], 2, &mut o);
    exports::aodv_ask(&mut h, 2, &mut o);
    reads::aodv_items(&mut h, &mut n);
    reads::aodv_sendable(&mut h, &mut l);
    reads::aodv_askable(&mut h, &mut l);
    reads::aodv_number(&mut h, &mut k);
    reads::aodv_entry(&mut h, 2, &mut r);
    reads::aodv_waiting(&mut h, 2, &mut n);
    reads::aodv_seen(&mut h, 2, 1, &mut b);
    exports::aodv_free(rt.alloc(), &mut h);
    h.let_go();
}
""",
}
EXPORTED = re.compile(r'#\[unsafe\(no_mangle\)\]\npub extern "C" fn (\w+)')


def exports(folder):
    """The functions that the library in this folder exports."""
    found = []
    for name in sorted(os.listdir(f"{folder}/src")):
        with open(f"{folder}/src/{name}", encoding="utf-8") as file:
            found += EXPORTED.findall(file.read())
    return found


def of_library(line, inside):
    """The line of a library's module for that of a program: the functions whose names inside these are are seen from
    outside, and `main` isn't."""
    if inside.search(line):
        return inside.sub(r"@\1", line).replace("define internal ", "define ")
    return line.replace("define i32 @main(", "define internal i32 @main(")


def library(rtlib, crate, top, folder, say):
    """The text of the library's module; None where there is none, and `say` is told why."""
    source = shutil.copytree(crate.folder, f"{folder}/program", ignore=shutil.ignore_patterns("out"))
    os.rename(f"{source}/src/lib.rt", f"{source}/src/main.rt")
    with open(f"{source}/src/main.rt", "a", encoding="utf-8") as file:
        file.write(CALLERS[crate.name])
    if not keeping.translate(rtlib, crate, source, folder, say):
        return None
    trial, program = keeping.as_text(rtlib, folder), f"{folder}/program.ll"
    if not trial:
        return None
    release.rewrite(trial, program, [f"{top}/crates/*/src", f"{rtlib.KIT}/rattle/*/src"])
    # A program exports nothing, so its functions have the names that they have inside.
    inside = re.compile(rf'@"{crate.name}::(?:\w+::)*({"|".join(exports(crate.folder))})"')
    with open(program, encoding="utf-8") as old, open(f"{folder}/library.ll", "w", encoding="utf-8") as new:
        new.writelines(of_library(line, inside) for line in old)
    return f"{folder}/library.ll"
