#!/usr/bin/env bash
# Works on sheets: ./rl run FILE, ./rl check FILE and others; ./rl alone lists them. FILE is assembler text (.asm) or
# an image.
#
# `run` and `check` use the programs `runner` and `checker` in target/bin/. Where one is missing, or a file that proofs rest
# on is newer, it is proved and built first (tests/program), which rt reports crate by crate; a later call starts the program at
# once.
set -euo pipefail
top=$(cd "$(dirname "$0")" && pwd)

usage() {
  cat >&2 <<'TEXT'
usage: ./rl run FILE         runs an image: value COUNT RESULT, stop NUMBER COUNT CHUNK OFFSET, or refused NUMBER LINE
       ./rl check FILE       the stack check: pass, fault NUMBER CHUNK OFFSET, or refused NUMBER LINE
       ./rl asm FILE         image lines of an assembler text
       ./rl dis FILE         assembler text of an image
       ./rl published FILE   what the published Rust answers, inside document 01's domain
FILE may be - for standard input, taken as an image (asm: as assembler text), and the ending .img may be left out.
TEXT
  exit 2
}

# Builds a command of tools/ or tests/ where it is missing or out of date, and runs it.
tool() {
  (cd "$top/$1" && cargo build --offline --release --quiet -p "$2" --bin "$3")
  "$top/$1/target/release/$3" "${@:4}"
}

image() {
  case $1 in
    *.asm) tool tools asm rl-asm asm "$1" ;;
    -) cat ;;
    *) if [ ! -e "$1" ] && [ -f "$1.img" ]; then cat "$1.img"; else cat "$1"; fi ;;
  esac
}

# The image is whole before the program starts, so that a text that doesn't assemble is not run as an empty image. The
# status is 0 for a value or a pass, 1 for any other answer, 2 where no line came.
on_image() {
  file=$(mktemp)
  trap 'rm -f "$file"' EXIT
  image "$2" >"$file"
  "$top/tests/program" "$1" </dev/null >/dev/null
  line=$("$top/target/bin/$1" <"$file") || exit 2
  [ -n "$line" ] || exit 2
  echo "$line"
  case $line in pass | "value "*) ;; *) exit 1 ;; esac
}

[ $# -eq 2 ] || usage
case $1 in
  run) on_image runner "$2" ;;
  check) on_image checker "$2" ;;
  asm) if [ "$2" = - ]; then tool tools asm rl-asm asm; else tool tools asm rl-asm asm "$2"; fi ;;
  dis) image "$2" | tool tools asm rl-asm dis ;;
  published) image "$2" | tool tests oracle oracle ;;
  *) usage ;;
esac
