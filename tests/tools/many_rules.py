"""A base of 20,000 rules, and the time of the tools on it: the seconds of the processor compared with those of a fixed piece of work on the same machine, since
a clock depends on what else runs. On a machine on which nothing else runs the work takes about half a second, so six times as much is 3 s."""
import os
import subprocess
import sys

MOST = 6
WORK = "x = 0\nfor k in range(8_000_000):\n    x = x + k & 1023\n"


def base():
    lines = [f'I{k:03} : saisie revenu alias A{k:03} : "input {k}" ;' for k in range(200)]
    lines += [f"C{k:03} : const = {k + 1} ;" for k in range(100)]
    lines += [f'V{k:05} : calculee {"restituee" if k % 50 == 0 else ""} : "variable {k}" ;' for k in range(20_000)]
    lines += [f'E{k:03} : anomalie : "E" : "{k}" : "00" : "text" : "N" ;' for k in range(200)]
    for k in range(20_000):
        before, far = f"V{k - 1:05}" if k else "I000", f"V{k * 7 // 11:05}" if k > 20 else "I001"
        lines += [f"regle {k + 1} : application : iliad ;",
                  f"V{k:05} = si ({before} > C{k % 100:03}) alors (max({far}, I{k % 200:03}) * 0.5) sinon {before} + arr(I{k % 200:03} / 3) finsi ;"]
    lines += [f"verif {k + 1} : application : iliad ; si V{k * 90:05} < 0 alors erreur E{k:03} ;" for k in range(200)]
    return "\n".join(lines) + "\n"


def seconds(words):
    """The seconds of the processor that a program takes, with its children."""
    before = os.times()
    done = subprocess.run(words, stdout=subprocess.DEVNULL, stderr=subprocess.DEVNULL, check=False)
    after = os.times()
    if done.returncode not in (0, 1, 5):
        sys.exit(f"{words}: status {done.returncode}")
    return after.children_user + after.children_system - before.children_user - before.children_system


def main():
    with open("base.m", "w", encoding="ascii") as out:
        out.write(base())
    for name, content in (("base.list", "iliad\nbase.m\n"), ("h.csv", "code,amount\nA000,5\n")):
        with open(name, "w", encoding="ascii") as out:
            out.write(content)
    tools = os.path.join(os.environ["ROOT"], "tools")
    for words in (["explain", "--all", "base.list"], ["explain", "run", "base.list", "-", "-", "h.csv"], ["slips", "base.list"],
                  ["why", "base.list", "h.csv", "V19999", "--depth", "3"]):
        for _ in range(3):
            fixed = seconds([sys.executable, "-c", WORK])
            rate = seconds([os.path.join(tools, words[0]), *words[1:]]) / fixed
            if rate <= MOST:
                break
        print(f"{' '.join(words[:2])}: {'in time' if rate <= MOST else f'{rate:.1f} times the work, and not {MOST}'}", flush=True)


if __name__ == "__main__":
    main()
