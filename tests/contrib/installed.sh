#!/bin/sh
# Tries the programs of contrib where `make install` puts them: each runs there, from any folder and by a link, and leaves nothing
# behind. Read beside them is share/runtest/runtestlib alone.
top=$(cd "$(dirname "$0")/../.." && pwd)
work=$(mktemp -d)
trap 'rm -rf "$work"' EXIT
status=0
bad() { echo "installed.sh: $1"; status=1; }

# the lines of the Makefile's target that are about contrib
sed -n '/^install:/,/^$/p' "$top/Makefile" | sed -n 's/^	\(.*contrib.*\)/\1/p; s/^	\(install -d.*\)/\1/p' |
    sed "s,\$(DESTDIR)\$(PREFIX),$work/dg,g" > "$work/lines"
(cd "$top" && sh -e "$work/lines") || bad "the lines of the Makefile fail"
(cd "$work/dg" && find . -type f | LC_ALL=C sort) > "$work/before"
mkdir "$work/links"
for it in "$top"/contrib/runtest-*; do
    name=$(basename "$it")
    ln -s "$work/dg/bin/$name" "$work/links/$name"
    (cd / && "$work/links/$name" --help > "$work/help") || bad "$name --help fails"
    grep -q "^usage: $name" "$work/help" || bad "$name --help tells no use"
    grep -q "$name" "$top/runtest.1" || bad "runtest.1 doesn't name $name"
done
(cd / && "$work/links/runtest-merge" "$top/examples/sh/sh.sum") | cmp - "$top/examples/sh/sh.sum" || bad "runtest-merge gives another report"
(cd / && "$work/links/runtest-show" "$top/examples/sh" > "$work/shown") || bad "runtest-show fails"
(cd "$work/dg" && find . -type f | LC_ALL=C sort) | cmp - "$work/before" || bad "the programs leave files behind"
[ $status != 0 ] || echo "installed.sh: $(wc -l < "$work/before" | tr -d ' ') files, which work where they are installed"
exit $status
