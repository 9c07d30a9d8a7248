# For the scripts of examples/, tools/ and .ci/ to source, in the repository's root.

# What rt says, on standard output. A program is built by running it; what that writes is shown only where rt fails.
built() { # lib or run
  local said code=0
  if [ "$1" = lib ]; then
    rt lib 2>&1
    return
  fi
  said=$(mktemp)
  rt run < /dev/null 2>&1 > "$said" || code=$?
  [ $code = 0 ] || cat "$said"
  rm -f "$said"
  return $code
}

# Proves and builds crate NAME where FILE is missing or older than something under crates/, and copies what was built to FILE: a library
# where FILE ends in .a, and else a program. Each crate that is proved gets a line on standard error, and so does every error. Where it
# fails, the script ends.
build_where_older() { # FILE NAME
  local file=$1 name=$2 command=run made started status routine='(: proved|unchanged since it was last proved\))$|^logic|^library |^statements |^checked |^crate |: note: |^note: |^rt: chose |^axioms |^linked |^rt: running '
  made=crates/$name/out/$name
  case $file in
    *.a) command=lib made=crates/$name/out/lib$name.a ;;
  esac
  if [ -f "$file" ] && [ -z "$(find crates crates.txt -name out -prune -o -newer "$file" -print -quit)" ]; then
    return
  fi
  echo "$file is missing or older than its sources: 'rt $command' proves and builds $name, crate by crate; from nothing this takes minutes" >&2
  started=$(date +%s.%N)
  status=$(mktemp)
  { (cd "crates/$name" && built "$command"); echo $? > "$status"; } | grep --line-buffered -vE "$routine" >&2 || true
  if [ "$(cat "$status")" != 0 ]; then
    echo "$file is not built; the errors stand above" >&2
    exit 1
  fi
  rm -f "$status"
  mkdir -p "$(dirname "$file")"
  cp "$made" "$file"
  touch -d "@$started" "$file"
}
