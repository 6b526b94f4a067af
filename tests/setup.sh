#!/bin/sh
# Installs the Debian packages that some tests use; without one its tests are left out, with a message. As root: tests/setup.sh
set -eu
apt-get update -qq
# tests/web: node runs the modules of pages, chromium with its driver opens them
apt-get install -y --no-install-recommends nodejs chromium chromium-driver
# tests/tools/lsp_neovim.sh: a real client of the language server
apt-get install -y --no-install-recommends neovim
# python/tests: frames, by /usr/bin/python3, for which Debian has pandas; types
apt-get install -y --no-install-recommends python3-pandas mypy
# tests/release.sh: a look at packages, a root of Debian's packages alone, services in it, shells and their completions, environments of Python
apt-get install -y --no-install-recommends lintian debootstrap systemd-container zsh fish groff python3-venv
# tests/engines: what spreads parts over machines; python/tests/test_dask.py. Debian starts daemons of its own with these packages, which the tests don't use
apt-get install -y --no-install-recommends parallel slurmctld slurmd slurm-client munge python3-dask python3-distributed iproute2
