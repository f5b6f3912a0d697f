# Counts the instructions of each call and prints a table in Markdown. bench/run calls it with the folder of the drivers.
import os
import re
import subprocess
import sys

build = sys.argv[1]
both = os.path.exists(f"{build}/original")


def counted(driver, call, times, files):
    run = subprocess.run(
        ["valgrind", "--tool=callgrind", "--callgrind-out-file=/dev/null", f"{build}/{driver}", call, str(times), *files],
        capture_output=True,
        text=True,
    )
    found = re.search(r"Collected : (\d+)", run.stderr)
    if run.returncode or not found:
        sys.exit(f"{driver} {call}: {run.stderr[-400:]}")
    return int(found.group(1))


# one call's instructions: what ten calls more take
def instructions(driver, call, files):
    return (counted(driver, call, 11, files) - counted(driver, call, 1, files)) // 10


def file(name, data):
    path = f"{build}/{name}"
    with open(path, "wb") as f:
        f.write(data)
    return path


child = b"$[#0:1|5,6]$"


def template(children, size):
    front = b"x" + child * children
    return front + b"a" * (size - len(front))


first = b"$10$$[#0|10]$ + $[#1|11]$$10$"
fallback = b"$-1$${0}$$(#0..-1$(|, |))$$-1$"
rows = [
    ("a matcher, 12 bytes", "matcher", [b"(f _ _ _ _ )"]),
    ("a template, 29 bytes", "template", [first]),
    ("64 bytes, 3 children", "template", [template(3, 64)]),
    ("512 bytes, 20 children", "template", [template(20, 512)]),
    ("4,096 bytes, 20 children", "template", [template(20, 4096)]),
    ("with separators, 29 bytes", "formatter", [first]),
    ("with separators, the first fallback", "formatter", [fallback]),
    ("with separators, 64 bytes", "formatter", [template(3, 64)]),
    ("with separators, 512 bytes", "formatter", [template(20, 512)]),
    ("with separators, 4,096 bytes", "formatter", [template(20, 4096)]),
    ("template to code, 29 bytes", "encode", [first]),
    ("template to code, the first fallback", "encode", [fallback]),
    ("template to code, 64 bytes", "encode", [template(3, 64)]),
    ("template to code, 256 bytes", "encode", [template(10, 256)]),
    ("template to code, 512 bytes", "encode", [template(20, 512)]),
    ("code to template, 29 bytes", "back", [first]),
    ("code to template, the first fallback", "back", [fallback]),
    ("code to template, 64 bytes", "back", [template(3, 64)]),
    ("code to template, 256 bytes", "back", [template(10, 256)]),
    ("code to template, 512 bytes", "back", [template(20, 512)]),
    ("groups of `k_(.*)_(.+)`", "groups", [b"k_(.*)_(.+)"]),
    ("`k_(.*)_(.+)` and `k_supplier_0017`", "match", [b"k_(.*)_(.+)", b"k_supplier_0017"]),
    ("the same, name of 63 bytes", "match", [b"k_(.*)_(.+)", b"k_" + b"supplier" * 7 + b"_0017"]),
    ("the same, name of 255 bytes", "match", [b"k_(.*)_(.+)", b"k_" + b"supplier" * 31 + b"_0017"]),
    ("40 `a*` and `b`, 63 `a`", "match", [b"a*" * 40 + b"b", b"a" * 63]),
    ("40 `a*` and `b`, 255 `a`", "match", [b"a*" * 40 + b"b", b"a" * 255]),
]
print("| call | bytes | instructions | per byte |" + (" original | ratio |" if both else ""))
print("|---|---|---|---|" + ("---|---|" if both else ""))
for number, (name, call, texts) in enumerate(rows):
    files = [file(f"{number}-{k}", t) for k, t in enumerate(texts)]
    bytes = sum(map(len, texts))
    if call in ("encode", "back"):
        code = subprocess.run([f"{build}/driver", "written", "0", files[0]], capture_output=True, check=True).stdout
        bytes += len(code)
        if call == "back":
            files = [file(f"{number}-code", code)]
    ours = instructions("driver", call, files)
    line = f"| {name} | {bytes:,} | {ours:,} | {ours / bytes:.1f} |"
    if both:
        if call in ("encode", "back"):
            line += " | |"
        else:
            theirs = instructions("original", call, files)
            line += f" {theirs:,} | {theirs / ours:.1f} |"
    print(line, flush=True)
