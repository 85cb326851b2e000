#!/bin/bash
# install.sh [PREFIX]: installs rvbench, rvlook, the files for enclaves, shell completion and two man pages under PREFIX, or ~/.local.
#
# Takes them from the folder `files` beside it, or from the one that RVBENCH_FILES names. Needs bash and coreutils, and no root. rvlook needs Python 3.8.
set -e -o pipefail
unset CDPATH
if [ $# -gt 1 ] || [[ $1 == -* ]]; then
  echo "usage: install.sh [PREFIX]" >&2
  [[ $1 == -h || $1 == --help ]] && exit 0
  exit 2
fi

# refuse MESSAGE: prints an error, and exits.
refuse() {
  echo "install: error: $1" >&2
  exit 1
}

files=${RVBENCH_FILES:-$(dirname "$(readlink -f "$0")")/files}
[ -x "$files/lib/rvbench/rvbench" ] || refuse "no program in '$files/lib/rvbench'"
[ "${1-unset}" ] || refuse "the name of the prefix is empty"
mkdir -p "${1:-$HOME/.local}" || exit 1
prefix=$(cd "${1:-$HOME/.local}" && pwd)

# The files are copied to a stage under the prefix. Then each part takes the place of the installed one, which is kept until all parts are in place.
# An installation that fails therefore leaves the earlier one as it was. A part that is a link is replaced, and not its target.
stage=$(mktemp -d "$prefix/.rvbench.XXXXXX") || refuse "'$prefix' is not writable"
placed=()
# clean_up: puts back the parts of the earlier installation if not all parts are in their places, and removes the stage.
clean_up() {
  local part
  for part in "${placed[@]}"; do
    rm -rf "${prefix:?}/$part"
    if [ -e "$stage/old/$part" ] || [ -L "$stage/old/$part" ]; then mv -T "$stage/old/$part" "$prefix/$part"; fi
  done
  rm -rf "$stage"
}
trap clean_up EXIT
trap 'exit 143' TERM HUP INT

# place PART: moves the installed part, a file or folder, to the stage, and the new one to its place.
place() {
  mkdir -p "$(dirname "$stage/old/$1")" "$(dirname "$prefix/$1")"
  if [ -e "$prefix/$1" ] || [ -L "$prefix/$1" ]; then mv -T "$prefix/$1" "$stage/old/$1"; fi
  placed+=("$1")
  mv -T "$stage/$1" "$prefix/$1"
}

cp -R -P -p "$files/." "$stage"
for part in lib/rvbench share/rvbench bin/{rvbench,rvlook,rvbench-build} share/man/man1/{rvbench,rvlook}.1 share/bash-completion/completions/{rvbench,rvlook}; do
  if [ -e "$stage/$part" ] || [ -L "$stage/$part" ]; then place "$part"; fi
done
placed=()
# Users of rvlook who do not own its files cannot keep bytecode.
python=$(command -v /usr/bin/python3 || command -v python3) && "$python" -m compileall -q "$prefix/lib/rvbench/python" > /dev/null || true
echo "install: installed $(cat "$prefix/lib/rvbench/version") under $prefix"
case :$PATH: in
  *":$prefix/bin:"*) ;;
  *) echo "install: add $prefix/bin to PATH" ;;
esac
