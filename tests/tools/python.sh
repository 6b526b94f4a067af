# needs the program
# The package: its tests, the blocks of its page unchanged, and what pip installs, which computes too.
here=$PWD
cd "$ROOT" || exit 1
python=python3
for one in python3 /usr/bin/python3; do "$one" -c 'import pandas' 2>/dev/null && { python=$one; break; }; done
PYTHONPATH=python "$python" -B -W ignore -m unittest discover -s python/tests 2>"$here/log" || cat "$here/log"
tail -n 1 "$here/log" | sed 's/ (skipped=.*//'
"$python" -B python/tests/page.py 2>/dev/null
wheel=$(PYTHONPATH=python python3 -c "import wheel_of_package as made, sys; print(made.build_wheel(sys.argv[1]))" "$here") && echo "$wheel"
PYTHONPATH=$here/$wheel XDG_CACHE_HOME=$here python3 -c "
import vodmejka
assert vodmejka.__file__.endswith('.whl/vodmejka/__init__.py')
print(vodmejka.Rules('examples/first/rules.list').run({'1AJ': '2500.5'})['IRN'])"
