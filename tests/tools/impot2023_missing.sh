# Without a program the comparison of the real year reports what is missing.
cd "$ROOT" || exit 1
M_TAX=nowhere/m_tax python3 examples/impot2023/check.py
echo "status $?"
printf '#!/bin/sh\necho "refused cycle A"\nexit 1\n' >"$OLDPWD/refusing"
chmod +x "$OLDPWD/refusing"
M_TAX=$OLDPWD/refusing python3 examples/impot2023/check.py --count 5
echo "status $?"
