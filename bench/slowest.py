#!/usr/bin/env python3
"""Lists what took the prover longest: functions, lemmas and last passes, by the times at which it saved its files, so in
seconds by the clock. It reads what rt keeps of checks from nothing by one job (crates/NAME/out/incremental); what was checked
again since shows the wrong time. Usage: bench/slowest.py [CHECKOUT [HOW MANY]]"""
import os
import re
import sys


def saved(folder):
    """The modules that were saved, with the times, the first one first."""
    for at, _, files in os.walk(folder):
        for file in files:
            if file.endswith(".oantt"):
                yield os.stat(f"{at}/{file}").st_mtime, file[: -len(".oantt")]


def part_of(crate, module):
    """The function or the lemmas that a module belongs to; a crate's own module comes with its last pass."""
    name = re.sub(rf"^Rattle-{crate}([-.](proofs|specs))?\.?", "", module)
    words = re.sub(r"\.decls$", "", name).split(".")
    while len(words) > 1 and words[-1][:1].isupper():
        words.pop()
    return ".".join(words) or "last pass"


def times(top, crate):
    """The seconds of each function and lemma of a crate."""
    total, last = {}, None
    for when, module in sorted(saved(f"{top}/crates/{crate}/out/incremental")):
        if last is not None and module.startswith(f"Rattle-{crate}"):
            part = part_of(crate, module)
            total[part] = total.get(part, 0) + when - last
        last = when
    return total


def main(top=".", count="30"):
    found = [(seconds, crate, part) for crate in os.listdir(f"{top}/crates") for part, seconds in times(top, crate).items()]
    print("| Crate | What | Seconds by the clock |\n|---|---|---|")
    for seconds, crate, part in sorted(found, reverse=True)[: int(count)]:
        print(f"| `{crate}` | {f'`{part}`' if part != 'last pass' else part} | {seconds:.0f} |")


if __name__ == "__main__":
    main(*sys.argv[1:])
