#!/bin/sh
# Tries the tools in tools/: tests/tools/run.sh. None of it needs the program.
set -e
here=$(cd "$(dirname "$0")" && pwd)
cd "$here"
PYTHONDONTWRITEBYTECODE=1 python3 -m unittest -q tools_test 2>&1
