"""The library for C, crate host_c, is that of which crates/demands speaks: each call of crates/host stands in it once more, with the same
parameters and clauses, and its body hands them on in their order. slc1.h declares these calls and no others."""

import os
import re
import sys

sys.path.append(sys.path[0] + "/../proofs")

from wrong_programs import ROOT, calls

CALL = re.compile(r'^#\[unsafe\(no_mangle\)\]\npub extern "C" fn (slc1_\w+)\((.*?)\)(.*?)^\{\n(.*?)^\}$', re.M | re.S)


def exports(crate):
    """Of each call: its parameters, its result with its clauses, its body, and the module that it stands in."""
    found = {}
    folder = os.path.join(ROOT, "crates", crate, "src")
    for file in sorted(os.listdir(folder)):
        with open(os.path.join(folder, file)) as text:
            for name, parameters, promise, body in CALL.findall(text.read()):
                found[name] = re.findall(r"(\w+): ([^,]+)", parameters), promise, "".join(body.split()), file.removesuffix(".rt")
    return found


def handed_on(name, module, parameters):
    return f"host::{module}::{name}({','.join(word for word, _ in parameters)})"


own, linked = exports("host"), exports("host_c")
if not set(own) == set(linked) == calls():
    sys.exit(f"not in host, host_c and slc1.h alike: {', '.join(sorted((set(own) | set(linked) | calls()) - (set(own) & set(linked) & calls())))}")
for name, (parameters, promise, _, module) in own.items():
    if linked[name][:2] != (parameters, promise):
        sys.exit(f"{name} has other parameters or clauses in host_c than in host")
    if linked[name][2].replace(",)", ")") != handed_on(name, module, parameters):
        sys.exit(f"{name} of host_c does something else than to hand on to host's: {linked[name][2]}")
print(f"{len(own)} calls of host_c have the parameters and clauses of host's, and hand on to them")
