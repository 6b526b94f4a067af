#!/bin/sh
# Looks at what tools/release makes: that two clones give the same bytes, that it refuses what isn't proved or committed, that lintian has nothing to say, that
# completions complete, and that wheels and the package install and compute where there is no toolchain: in an environment of Python, and in a
# root of Debian's packages alone, which debootstrap makes. What isn't installed, or a mirror that can't be reached, is left out with a line. Needs a program
# in out, and no change that isn't committed. tests/release.sh [MIRROR]; as root, since debootstrap and chroot need it. It takes five minutes.
cd "$(dirname "$0")/.." || exit 1
mirror=${1:-http://deb.debian.org/debian}
room=$(mktemp -d) || exit 1
root=$room/root
# (what a root holds mounted is never removed with it)
end() { if ! mountpoint -q "$root/proc" 2>/dev/null || umount "$root/proc"; then rm -rf "$room"; fi; }
trap end EXIT
trap 'exit 1' HUP INT TERM
unset M_TAX SOURCE_DATE_EPOCH
passed=0
failed=0

# says WHAT EXPECTED WORD..: the command prints just that, and ends with the status 0.
says() {
    what=$1 expected=$2
    shift 2
    if found=$("$@" 2>"$room/errors") && [ "$found" = "$expected" ]; then passed=$((passed + 1)); return; fi
    failed=$((failed + 1))
    printf 'release: %s: not\n%s\nbut\n%s\n' "$what" "$expected" "$found"
    tail -n 5 "$room/errors"
}

# rejects WHAT MESSAGE WORD..: the command prints this on standard error, with the status 1, and makes no folder.
rejects() {
    what=$1 expected=$2
    shift 2
    "$@" >"$room/output" 2>"$room/errors"
    if [ $? -eq 1 ] && grep -q -- "$expected" "$room/errors" && [ ! -e "$room/none" ]; then passed=$((passed + 1)); return; fi
    failed=$((failed + 1))
    echo "release: $what: no '$expected' but:"
    cat "$room/errors"
}

# With the same digests everywhere: another folder, time zone, mask and language.
clone=$room/elsewhere/clone
mkdir "$room/elsewhere" && git clone -q . "$clone" && mkdir "$clone/out" && cp out/m_tax "$clone/out/" && touch "$clone/out/built" || exit 1
[ ! -e out/m_survey ] || cp out/m_survey "$clone/out/" || exit 1
tools/release "$room/one" >"$room/names" || exit 1
(umask 077 && cd / && TZ=Asia/Tokyo LC_ALL=C PYTHONHASHSEED=7 "$clone/tools/release" "$room/two") >/dev/null || exit 1
says "two clones" "" diff -r "$room/one" "$room/two"
says "the modes" "644" sh -c "stat -c %a '$room/two'/* | sort -u"
# shellcheck disable=SC2016
says "the digests" "" sh -c 'cd "$0" && sha256sum --quiet -c SHA256SUMS' "$room/one"

# What isn't released.
rejects "a folder that is there" "is there already" tools/release "$room/one"
echo "3 passed, 1 failed" >"$room/log"
rejects "a gate that failed" "no log of a gate that passed" tools/release "$room/none" --gate "$room/log"
echo "30 passed, 0 failed (m_fixed and the crates below alone: not the gate)" >"$room/log"
rejects "a gate of one crate" "no log of a gate that passed" tools/release "$room/none" --gate "$room/log"
touch -d '1 minute' "$clone/crates/m_tax/src"
rejects "a newer source" "crates/m_tax/src is newer than the program" "$clone/tools/release" "$room/none"
touch -d '2 minutes' "$clone/out/built"
echo >>"$clone/README.md"
rejects "an edited page" "changes that no commit has: M README.md" "$clone/tools/release" "$room/none"
git -C "$clone" checkout -q README.md
rm "$clone/out/built"
rejects "a program of unknown sources" "no program that ./build" "$clone/tools/release" "$room/none"

if command -v lintian >/dev/null 2>&1; then
    says "lintian" "" lintian --allow-root --fail-on error,warning "$room/one"/*.deb
else
    echo "release: lintian: not run: it isn't installed"
fi

# Man pages and completions, as the package has them.
dpkg-deb -x "$room/one"/*.deb "$room/files" || exit 1
pages() { find "$room/files/usr/share/man" -name '*.gz'; }
if command -v groff >/dev/null 2>&1; then
    for page in $(pages); do
        gzip -dc "$page" | groff -man -Tutf8 -K utf8 -ww -P-cbou -rLL=78n 2>&1 >/dev/null | sed "s|^|$(basename "$page"): |"
    done >"$room/warnings"
    says "warnings of groff" "" cat "$room/warnings"
fi
tests/release_pages.py "$room/files/usr/share/man" >"$room/differences"
says "what pages have of the help" "" cat "$room/differences"
completed() { completed_of vodmejka "$@"; }
completed_of() {
    PATH=$room/files/usr/bin:$PATH bash -c '
        . "$1/usr/share/bash-completion/completions/$2"; function=_$2; shift 2
        COMP_WORDS=("$@"); COMP_CWORD=$(($# - 1)); compopt() { :; }; "$function"; echo "${COMPREPLY[*]}"' bash "$room/files" "$@"
}
PYTHONPATH=$room/files/usr/lib/python3/dist-packages
export PYTHONPATH
PYTHONDONTWRITEBYTECODE=1
export PYTHONDONTWRITEBYTECODE
if command -v bash >/dev/null 2>&1; then
    says "a command in bash" "table-in table-out" completed vodmejka table
    says "an option in bash" "--only-nonzero --open" completed vodmejka why --o
    says "a code in bash" "1AJ" completed vodmejka marginal examples/first/rules.list - household.csv 1
    says "a command of m_survey in bash" "table" completed_of m_survey m_survey t
    says "a variable in bash" "IRN" completed vodmejka why examples/first/rules.list household.csv IR
fi
if command -v zsh >/dev/null 2>&1; then
    says "zsh" "" zsh -n "$room/files/usr/share/zsh/vendor-completions/_vodmejka"
else
    echo "release: zsh: not run: it isn't installed"
fi
if command -v fish >/dev/null 2>&1; then
    script=$room/files/usr/share/fish/vendor_completions.d/vodmejka.fish
    says "a code in fish" "1AJ" env "PATH=$room/files/usr/bin:$PATH" fish -c "
        source $script; complete -C 'vodmejka marginal examples/first/rules.list - h.csv 1A'"
else
    echo "release: fish: not run: it isn't installed"
fi
unset PYTHONPATH

# The household of README, in the words of a package's user.
household="printf 'code,amount\n1AJ,33333\n' >/tmp/me.csv && m_tax run examples/impot2023/rules.list examples/impot2023/driver.mpp - /tmp/me.csv"
answer=$(awk '/^## A real household/{here = 1} here && /^```/{block++; next} here && block == 3' README.md)
library="from vodmejka import Rules; print(Rules('examples/impot2023/rules.list', 'examples/impot2023/driver.mpp').run({'1AJ': 33333})['IINET'])"

# Wheels, in an environment without the clone and without a program of the path.
if python3 -m venv "$room/venv" >/dev/null 2>&1; then
    files=$room/files/usr/share/doc/vodmejka
    says "a wheel" "" "$room/venv/bin/pip" install -q --no-index --disable-pip-version-check "$room/one"/*manylinux*.whl
    says "a household by the wheel" "$answer" sh -c "cd '$files' && PATH='$room/venv/bin:/usr/bin:/bin' && $household"
    says "a household from Python" 2286 sh -c "cd '$files' && PATH=/nowhere '$room/venv/bin/python' -c \"$library\""
    mkdir -p "$room/away/python" && cp -r python/tests "$room/away/python/" && cp -r examples docs "$room/away/" || exit 1
    says "the tests of the package, without the clone" "OK" sh -c "cd '$room/away/python/tests' && PATH='$room/venv/bin:/usr/bin:/bin' \
        '$room/venv/bin/python' -B -W ignore -m unittest discover -s . 2>&1 | tail -n 1 | sed 's/ (.*//'"
    says "the wheel alone" "" "$room/venv/bin/pip" install -q --no-index --disable-pip-version-check --force-reinstall "$room/one"/*none-any.whl
    rejects "the wheel alone without a program" "there is no program m_tax" sh -c "cd '$files' && PATH=/nowhere '$room/venv/bin/python' -c \"$library\""
else
    echo "release: wheels: not run: python3 -m venv makes no environment"
fi

# A root of Debian's packages alone.
# within COMMAND: what a user of that root gets of a command, started where the package has its documents.
within() { chroot "$root" /usr/bin/env -i PATH=/usr/sbin:/usr/bin:/sbin:/bin LC_ALL=C.UTF-8 sh -c "cd /usr/share/doc/vodmejka 2>/dev/null; $1"; }
# services: starts both services in that root under its own systemd, of a household, one that is rejected, a table, and of inputs that aren't there.
services() {
    within "cp systemd/*.service /etc/systemd/system/ && mkdir -p /srv/m_tax/in /srv/m_tax/out && chmod 700 /srv/m_tax/out &&
        m_tax compile examples/first/rules.list - - >/srv/m_tax/rules.code && cp examples/first/household.csv /srv/m_tax/in/dupont.csv &&
        printf 'code,amount\n1AJ,x\n' >/srv/m_tax/in/bad.csv && chmod 600 /srv/m_tax/in/*.csv && cp examples/first/table.csv /srv/m_tax/in/2026.csv &&
        groupadd --system m_tables && chgrp m_tables /srv/m_tax/in/2026.csv && chmod 640 /srv/m_tax/in/2026.csv" || return
    cat >"$root/etc/systemd/system/services.service" <<'end'
[Unit]
After=basic.target
[Service]
Type=oneshot
ExecStart=/bin/sh -c 'for unit in m_tax@dupont m_tax@bad m_survey@2026 m_tax@none m_survey@none; do \
    systemctl start $unit 2>/dev/null; echo "$unit $?"; done >/srv/started; systemctl poweroff --no-block'
end
    mkdir -p "$root/etc/systemd/system/basic.target.wants"
    ln -s ../services.service "$root/etc/systemd/system/basic.target.wants/"
    umount "$root/proc"
    timeout 120 systemd-nspawn -q -D "$root" -b --console=read-only --private-network --register=no --keep-unit </dev/null >"$room/boot" 2>&1
    mount -t proc proc "$root/proc" || exit 1
    says "services" "m_tax@dupont 0
m_tax@bad 0
m_survey@2026 0
m_tax@none 1
m_survey@none 1" cat "$root/srv/started"
    says "a household by its service" "IRN = 1500.5" cat "$root/srv/m_tax/out/dupont.txt"
    says "a household that is rejected" "refused household line 2: bad amount" cat "$root/srv/m_tax/out/bad.txt"
    says "a table by its service" "name,stop,notes,IRN
dupont,,,1500.5
martin,,,-1000" cat "$root/srv/m_tax/out/2026.csv"
    says "who may read what they print" "600 600 600" sh -c "echo \$(stat -c %a '$root'/srv/m_tax/out/*)"
}
if ! command -v debootstrap >/dev/null 2>&1; then
    echo "release: a root of Debian: not run: debootstrap isn't installed"
elif ! debootstrap --variant=minbase --include=ca-certificates bookworm "$root" "$mirror" >"$room/debootstrap" 2>&1; then
    echo "release: a root of Debian: not run: debootstrap made none: $(tail -n 1 "$room/debootstrap")"
else
    mount -t proc proc "$root/proc" || exit 1
    cp "$room/one"/*.deb "$room/one"/*.whl "$root/root/"
    install="apt-get -qq -o APT::Sandbox::User=root -o Dpkg::Use-Pty=0 -o APT::Install-Recommends=0 install"
    if within "apt-get -qq update && DEBIAN_FRONTEND=noninteractive $install /root/vodmejka_*.deb man-db python3-venv" >"$room/apt" 2>&1; then
        passed=$((passed + 1))
        says "README's household" "$answer" within "$household"
        says "man m_tax" "m_tax - computes the French income tax from rules written in M" within "man m_tax | sed -n '/^NAME/{n; s/^ *//p}'"
        says "man m_survey" "m_survey - computes tables of households from tax rules written in M, and says what holds for all of them" within "
            MANWIDTH=200 man m_survey | sed -n '/^NAME/{n; s/^ *//p}' | tr -s ' '"
        says "man in French" "m_tax - calcule l'impôt sur le revenu à partir de règles écrites en M" within "
            man -L fr m_tax | sed -n '/^NOM/{n; s/^ *//p}'"
        says "a page of rules" "<!doctype html>" within "
            vodmejka page examples/impot2023/rules.list examples/impot2023/driver.mpp >/tmp/page.html && head -c 15 /tmp/page.html"
        says "pip install of the wheel" 2286 within "
            python3 -m venv /root/venv && /root/venv/bin/pip install -q --no-index /root/*manylinux*.whl && /root/venv/bin/python -c \"$library\""
        says "dpkg's digests" "" within "dpkg --verify vodmejka"
        if ! command -v systemd-nspawn >/dev/null 2>&1; then
            echo "release: services: not run: systemd-nspawn isn't installed"
        elif ! within "DEBIAN_FRONTEND=noninteractive $install systemd-sysv dbus" >"$room/apt" 2>&1; then
            echo "release: services: not run: the root has no systemd: $(tail -n 1 "$room/apt")"
        else
            services
        fi
        within "apt-get -qq -o Dpkg::Use-Pty=0 remove vodmejka" >"$room/apt" 2>&1
        says "removal" "" within "find /usr -path '*vodmejka*' -o -name 'm_tax*' -o -name 'm_survey*'"
    else
        failed=$((failed + 1))
        echo "release: apt install in a root of Debian:"
        tail -n 8 "$room/apt"
    fi
fi

echo "release: $passed passed, $failed failed"
[ "$failed" -eq 0 ]
