#!/bin/bash
# Tries ./install and ./release, and what the documents quote in a release.
#
#   gate/try_install.sh
#
# They run in folders of their own, on a path of commands without the Rattle kit. The program has to be built from the sources as
# they are. It prints a line for each try that fails, and a count.
. "$(dirname "$0")/tries.sh"

# The commands that an installed one may need, and beside them those of the documents. Neither rt nor what it brings is among them.
mkdir "$dir/bin" "$dir/more"
python=$(python3 -c 'import sys; print(sys.executable)')
ln -s "$python" "$dir/bin/python3"
for tool in bash cat dirname grep head readlink sh; do ln -s "$(type -P $tool)" "$dir/bin/$tool"; done
for tool in cmp cp diff ls mkdir sed seq tail ia64-linux-gnu-{addr2line,as,ld,objcopy,objdump}; do
  if type -P "$tool" > /dev/null; then ln -s "$(type -P "$tool")" "$dir/more/$tool"; fi
done

# WHERE: what an installed command answers, from an empty folder.
tries() {
  local ia64=$1/bin/ia64 examples=$1/share/doc/ia64/examples
  mkdir -p "$dir/empty" && cd "$dir/empty" || exit 1
  got=$(PATH=$dir/bin "$ia64" check < "$examples/read_after_write.s" 2>&1)
  [ "$got" = $'violations 1\nRAW r8 0.1 0.2' ]
  note $? "$2: standard input"
  got=$(PATH=$dir/bin "$ia64" check "$examples/count.s" "$examples/functions.o" 2>&1 | tail -n 1)
  [ "$got" = '3 accepted, 1 violated, 0 not judged (1 of these functions with stand-ins)' ]
  note $? "$2: files"
  got=$(PATH=$dir/bin "$ia64" run 100 "$examples/count.s" 2>&1 | head -n 1)
  [ "$got" = 'end break 0x0 at 3.2' ]
  note $? "$2: a run"
  got=$(PATH=$dir/bin "$ia64" draw "$examples/count.s" 2>&1 | head -c 4)
  [ "$got" = '<svg' ]
  note $? "$2: a picture"
  PATH=$dir/bin "$ia64" --version 2>&1 | grep -q 'the program is proved and built'
  note $? "$2: the version"
  PATH=$dir/bin "$ia64" --help 2>&1 | grep -q '^  check FILE'
  note $? "$2: help"
  cmp -s "$1/share/doc/ia64/docs/page/index.html" "$here/docs/page/index.html"
  note $? "$2: the page for a browser"
  [ "$(head -c 4 "$1/share/man/man1/ia64.1")" = '.TH ' ] && bash -n "$1/share/bash-completion/completions/ia64"
  note $? "$2: the manual page, or the completions"
  cd "$here" || exit 1
}

./install > /dev/null 2>&1
[ $? = 2 ]
note $? 'install without a folder'
./install "$dir/installed/it's here" && tries "$dir/installed/it's here" 'installed'
ln -s "$dir/installed/it's here/bin/ia64" "$dir/link"
got=$(PATH=$dir/bin "$dir/link" check "$here/examples/count.s" 2>&1)
[ "$got" = '1 accepted, 0 violated, 0 not judged' ]
note $? 'installed, by a link'
mv "$dir/installed/it's here" "$dir/moved" && tries "$dir/moved" 'moved'
tarball=$(./release)
(cd out && sha256sum --quiet -c "${tarball#out/}.sha256")
note $? "the release's sum"
mkdir "$dir/released" && tar -C "$dir/released" -xzf "$tarball"
released=$dir/released/$(basename "$tarball" .tar.gz)
tries "$released" 'released'
(cd "$released" && sha256sum --quiet -c SHA256SUMS) && grep -q '^rattle-kit' "$released/LOGIC"
note $? "the release's files"
said=$(PATH=$dir/bin:$dir/more gate/try_pages.sh "$released" 2>&1)
note $? "what the documents say in an unpacked release: $said"
counted
