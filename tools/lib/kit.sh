# What the commands in bash ask of the kit. Sourced behind common.sh.

# The kit's folder.
kit() { (cd "$(dirname "$(rt doc)")" && pwd -P); }

# The kit once more in the folder $1/kit, made of links but for `rt` itself; but its clang compiles each module that it
# is given once more, as $1/module.o: that of a static library at -O3 with every function inlined, that of `rt try` at
# -O3 without the sanitizer; the module itself stays as $1/module.bc. So the kit's own commands hand out what they would
# throw away.
keeping_kit() {
  local room=$1 kit tools part
  kit=$(kit) tools=$room/kit/toolchain
  mkdir -p "$room/kit/bin" "$tools/bin"
  for part in "$kit"/*; do case ${part##*/} in bin | toolchain) ;; *) ln -s "$part" "$room/kit/" ;; esac; done
  for part in "$kit"/bin/*; do ln -s "$part" "$room/kit/bin/"; done
  rm "$room/kit/bin/rt" "$room/kit/bin/rtlib.py"
  cp "$kit/bin/rt" "$kit/bin/rtlib.py" "$room/kit/bin/"
  ln -s "$kit/toolchain/lib" "$tools/lib"
  for part in "$kit"/toolchain/bin/*; do printf '#!/bin/sh\nexec "%s" "$@"\n' "$part" >"$tools/bin/${part##*/}"; done
  cat >"$tools/bin/clang" <<END
#!/bin/sh
"$kit/toolchain/bin/clang" "\$@" || exit
case " \$* " in
*" -x ir "*" -fsanitize=address "*) set -- "\$@" -O3 -fno-sanitize=address ;;
*" -x ir "*" -fPIC -O3 "*) set -- "\$@" -mllvm -inline-threshold=100000 ;;
*) exit 0 ;;
esac
cp module.bc "$room/module.bc"
exec "$kit/toolchain/bin/clang" "\$@" -o "$room/module.o"
END
  chmod +x "$tools"/bin/*
}

# What a program is compiled from, in one line.
sources() { { rt version && sha256sum crates.txt crates/*/src/*.rt; } | sha256sum; }

# Compiles the program $2 without a proof, by `rt try`, as target/unproved/$2, unless it stands there of these very
# sources already.
unproved() {
  local room=$1 name=$2 key kit made=target/unproved/$2
  key=$(sources)
  [ -x "$made" ] && [ "$(cat "$made.sources" 2>/dev/null)" = "$key" ] && return
  mkdir -p target/unproved
  rm -f "$made" "$made.sources"
  keeping_kit "$room"
  # On a long input the kit's interpreter runs out of steps; what the compiled one writes is held to stdout.
  (cd "crates/$name" && "$room/kit/bin/rt" try --steps 1 <stdin >"$room/wrote" 2>"$room/said") || return
  cmp -s "$room/wrote" "crates/$name/stdout" || { echo "it writes another stdout" >>"$room/said"; return 1; }
  kit=$(kit)
  "$kit/bin/rattle-link" --target x86_64-unknown-linux-gnu --toolchain "$kit/toolchain" -o "$room/$name" \
    "$room/module.o" "$kit/c/libos_c.a" "$kit/c/liblibc_c.a" >>"$room/said" 2>&1 || return
  mv "$room/$name" "$made" || return
  echo "$key" >"$made.sources"
}

# Has the program $1 proved and built as crates/$1/out/$1, in this checkout, or sees that it is: it is run on no input.
proved() { (cd "crates/$1" && rt run </dev/null 2>&1 >/dev/null | without_praise >&2); }

# What `rt` says, without what it says where all is well already.
without_praise() { sed '/^rt: nothing has changed since the last proved build/d; /^rt: running /d'; }

# The program $1 of the sources, which rt has to know as proved, unless `mark` says that it need not be.
of_sources() {
  command -v rt >/dev/null || stop 4 "there is no rt, which knows whether it is that of the sources; nothing was run"
  if [ -n "$mark" ]; then
    program=$home/target/unproved/$1
    (cd "$home" && unproved "$room" "$1") && return
    tail -n 5 "$room/said" >&2
    stop 4 "the sources can't be compiled; nothing was run"
  fi
  program=$home/crates/$1/out/$1
  [ -x "$program" ] || echo "$1: proved and built first, in $2" >&2
  (cd "$home" && proved "$1") || stop 4 "it is not proved; nothing was run"
}

# Sets `program` to the program $1, which takes $2 to prove; it lies beside the command where that was installed.
find_program() {
  program=$home/bin/$1
  [ "$(uname -m)" = x86_64 ] || stop 4 "the kit builds programs for x86-64; nothing was run"
  if [ -f "$home/crates.txt" ]; then
    of_sources "$@"
  elif [ -n "$mark" ]; then
    stop 4 "where it is installed there are no sources to compile; nothing was run"
  fi
  [ -n "$mark" ] || grep -aqF 'rattle logic=' "$program" ||
    stop 4 "$program lacks the kit's mark of a proved program; nothing was run"
}
