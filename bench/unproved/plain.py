#!/usr/bin/env python3
"""Writes the sources of the crates below as one crate of plain Rust, their contracts left out, into a folder.

plain.py FOLDER: FOLDER/main.rs and a module for each crate. Where the library of Rattle differs from that of Rust, a stand-in is taken
(stand_ins/). It goes line by line and knows just the forms that these sources have; what it writes is for rustc and a
profiler, and nothing is claimed of it.
"""

import re
import shutil
import sys
from pathlib import Path

HERE = Path(__file__).resolve().parent
CRATES = HERE.parents[1] / "crates"
NAMES = """
    hub_io dec_text fixed_distance hub_model cut_model hub_make token_reader
    instance_cab instance_ap claim_board desks unit_duals leg_duals assign_sub hub_edges dual_cuts pareto_cuts value_cuts
    cut_pool frac_rows plain_rows core_cuts frac_master leaf_bound hub_fixing p_hub search_advice ascent_lengths dual_flow dual_ascent
    hub_moves dual_adviser search_core search_steps par_separate branch_tree node_rounds ascent_search cert_scan cert_format
    dual_lender proof_text cert_lines dual_lines core_lines cert_conditions cert_checker warm_start
""".split()
STAND_INS = ["draw_board", "itoa", "memchr", "rayon", "rtrb"]
# Modules that ask for more of the library than the stand-ins have, and that no search needs.
LEFT_OUT = {"mem_shelf", "row_layout"}
# Modules of a crate for which a stand-in is taken, and the names of it.
STOOD_FOR = {"claim_board": ({"boards", "hands", "laws", "rules", "seats", "steps"}, "pub use crate::draw_board::{Board, Seat};\n")}
# What is written otherwise, each the form of Rattle and that of Rust.
REWRITTEN = [
    (r"vec!\[in ([a-z.]+); ", r"rattle_vec![\1; "),
    (r"\.to_vec\((?=[a-z])", ".to_vec_in("),
    (r"\.collect\((?=(self\.)?alloc)", ".collect_in("),
    (r"fmt<W: fmt::Write>", "fmt"),
    (r"fmt::Formatter<W>", "fmt::Formatter"),
    (r"\n[ ]*prove!.*;", ""),
    (r"#\[derive\(Drop\)\]", ""),
    (r", Drop\b(?=[,)])", ""),
    (r"derive\(Drop, ", "derive("),
    (r", Error\)\]", ")]"),
    (r"[ ]*#\[error\(.*\)\]\n", ""),
    (r" \+ Drop\b", ""),
    (r"\b([A-Z]): Drop\b", r"\1"),
    (r"use std::alloc::", "use crate::rattle_std::alloc::"),
    (r"use std::thread::", "use crate::rattle_std::thread::"),
    (r"use std::sync::Arc;", "use crate::rattle_std::sync::Arc;"),
    (r"use std::marker::Model;", ""),
    (r"use thiserror::Error;", ""),
]
GHOST = re.compile(r"(pub )?ghost ")
CONTRACT = re.compile(r"(requires|ensures)\b|impl(<[^{]*>)? Model for|#!?\[(tactic|cycle)")


def opened(line: str) -> int:
    """How many more brackets the line opens than it closes."""
    line = re.sub(r"b?'(\\.|[^'\\])'|b?\"(\\.|[^\"\\])*\"|//.*", "", line)
    return sum(line.count(c) for c in "({[") - sum(line.count(c) for c in ")}]")


def without_contracts(lines: list[str]) -> list[str]:
    """The lines but for comments, clauses, models and tactics."""
    kept: list[str] = []
    at = 0
    while at < len(lines):
        line = lines[at].strip()
        depth = opened(line)
        if GHOST.match(line):
            while depth > 0 or not lines[at].rstrip().endswith((";", ",")):
                at += 1
                depth += opened(lines[at])
        elif CONTRACT.match(line):
            while depth > 0:
                at += 1
                depth += opened(lines[at])
            if line.startswith(("requires", "ensures")) and lines[at].rstrip().endswith(";"):
                kept[-1] += ";"
        elif not line.startswith("//"):
            kept.append(lines[at])
        at += 1
    return kept


def plain(crate: str, text: str, own: set[str]) -> str:
    """The text of a file of the crate, which has these modules, as plain Rust."""
    text = "\n".join(without_contracts(text.split("\n")))
    for form, other in REWRITTEN:
        text = re.sub(form, other, text)
    text = re.sub(r"\bcrate::(?!rattle_std)", f"crate::{crate}::", text)
    for name in NAMES + STAND_INS:
        if name in own or name == crate:
            text = re.sub(rf"^(\s*(pub )?use ){name}::", rf"\1self::{name}::", text, flags=re.M)
        else:
            text = re.sub(rf"^(\s*(pub )?use ){name}\b", rf"\1crate::{name}", text, flags=re.M)
            text = re.sub(rf"(?<![\w:]){name}::", f"crate::{name}::", text)
    for name in LEFT_OUT:
        text = re.sub(rf"^(pub )?(mod|use) (self::|crate::\w+::)?{name}\b.*;\n", "", text, flags=re.M)
    text = text.replace("crate::crate::", "crate::")
    if crate in STOOD_FOR and re.search(r"^mod \w+;$", text, re.M):
        modules, names = STOOD_FOR[crate]
        text = re.sub(rf"^(pub )?(mod|use) ({'|'.join(sorted(modules))})\b[^;]*;\n", "", text, flags=re.M) + names
    # A map of Rust takes memory without a word.
    text = text.replace(".insert(commodity, listed).map_err(AllocError::from)?", ".insert(commodity, listed)")
    return "use crate::rattle_std::prelude::*;\n" + text


def main() -> None:
    out = Path(sys.argv[1])
    for crate in NAMES:
        left_out = LEFT_OUT | STOOD_FOR.get(crate, (set(), ""))[0]
        files = sorted(file for file in (CRATES / crate / "src").rglob("*.rt") if file.stem not in left_out)
        own = {file.stem for file in files}
        for file in files:
            name = "mod.rs" if file.name == "lib.rt" else str(file.relative_to(CRATES / crate / "src").with_suffix(".rs"))
            target = out / crate / name
            target.parent.mkdir(parents=True, exist_ok=True)
            target.write_text(plain(crate, file.read_text(), own))
    for file in (HERE / "stand_ins").glob("*.rs"):
        shutil.copy(file, out / file.name)
    mods = "".join(f"mod {name};\n" for name in NAMES + STAND_INS)
    (out / "main.rs").write_text(
        "#![allow(warnings)]\n#[macro_use]\nmod rattle_std;\n" + mods + "mod calls;\nfn main() {\n    calls::main()\n}\n"
    )


main()
