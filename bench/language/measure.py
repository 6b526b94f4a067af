#!/usr/bin/env python3
"""Times whole runs of the program over generated rule bases, against a plain scanner of the same bytes.

    measure.py PROGRAM SCANNER FOLDER SIZE:FILES..

PROGRAM is out/m_tax as ./build made it, SCANNER the compiled bench/lexer/plain.rs, and FOLDER a place for the generated files. Each line has the
bytes read, the least time of the processor (user and system) of three runs, of `run` and of `compile`, and the peak of resident memory.
"""
import os
import subprocess
import sys

sys.path.insert(0, os.path.dirname(os.path.dirname(os.path.abspath(__file__))))
from measured import figure, least, scanned

HERE = os.path.dirname(os.path.abspath(__file__))


def main():
    program, scanner, room = sys.argv[1:4]
    print("| bytes read | files | `run`, s | `compile`, s | peak, MB | peak / bytes | scanner, s | `run` / scanner | `compile` / scanner |")
    print("|---:|---:|---:|---:|---:|---:|---:|---:|---:|")
    for shape in sys.argv[4:]:
        size, files = shape.split(":")
        folder = os.path.join(room, f"{size}_{files}")
        subprocess.run([sys.executable, f"{HERE}/generate.py", size, files, folder], check=True)
        rules = [f"rules{n + 1}.m" for n in range(int(files))]
        read = sum(os.path.getsize(os.path.join(folder, name)) for name in ["list.txt", "household.csv", *rules])
        seconds, peak, status, text = least([program, "run", "list.txt", "-", "-", "household.csv"], folder)
        compiled, peak_too, status_too, text_too = least([program, "compile", "list.txt", "-", "-"], folder)
        if status != 0 or status_too != 0:
            sys.exit(f"{shape}: status {status}, {text[:200]}; {status_too}, {text_too[:200]}")
        times, most = scanned(scanner, rules, folder), max(peak, peak_too)
        print(f"| {read:,} | {files} | {seconds:.2f} | {compiled:.2f} | {most / 1e6:.0f} | {most / read:.1f} | "
              f"{times:.3f} | {seconds / times:.1f} | {compiled / times:.1f} |", flush=True)
    figure("language.run_60_MB_to_scanner", seconds / times, "<=6")
    figure("language.compile_60_MB_to_scanner", compiled / times, "<=6")
    figure("language.compile_60_MB_s", compiled)
    figure("language.bytes_of_memory_a_byte", most / read, "<=60")


main()
