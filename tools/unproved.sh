#!/bin/sh
# Builds a program without proof, as the kit builds a proved one. The kit builds what is proved alone, but `rt try` compiles unproved
# programs: a folder that stands for the kit here keeps the module that `rt try` hands to clang, and ends there. unproved.py makes it one
# without the checks of a trial, and the kit's clang and linker build it.
# With UNPROVED_INLINE=no in the environment no function is inlined, so that calls can be counted. With --quick it isn't optimised, and
# stops where a proof would have to say that it doesn't get there; with --test it runs the crate's tests so.
# Usage: unproved.sh FOLDER CRATE [--quick | --test], where FOLDER holds crates, crates.txt and HANDLES; the program is FOLDER/program.
set -eu
tools=$(cd "$(dirname "$0")" && pwd)
kit=$(dirname "$(rt doc)")
folder=$(cd "$1" && pwd)
crate=$2
kind=${3:-}
tests=
if [ "$kind" = --test ]; then tests=--test; fi
stand="$folder/kit"
mkdir -p "$stand/bin" "$stand/toolchain/bin"
for it in "$kit"/*; do
  case $(basename "$it") in bin | toolchain) ;; *) ln -sfn "$it" "$stand/" ;; esac
done
for it in "$kit"/bin/*; do ln -sfn "$it" "$stand/bin/"; done
rm -f "$stand/bin/rt" "$stand/bin/rtlib.py" "$stand/bin/rattle"
cp "$kit/bin/rt" "$kit/bin/rtlib.py" "$stand/bin"
# Beside a trial rt looks for reserved names with the checker, which takes as long as the trial.
printf '#!/bin/sh\n' > "$stand/bin/rattle"
ln -sfn "$kit/toolchain/lib" "$stand/toolchain/"
for it in "$kit"/toolchain/bin/*; do ln -sfn "$it" "$stand/toolchain/bin/"; done
rm -f "$stand/toolchain/bin/clang"
# The program comes as bitcode, and what the trial adds to it as text. The program isn't to run, so its build ends here.
cat > "$stand/toolchain/bin/clang" << END
#!/bin/sh
if [ "\$(head -c 2 module.bc)" = BC ]; then
  cp module.bc '$folder/module.bc'
  exit 1
fi
exec '$kit/toolchain/bin/clang' "\$@"
END
chmod +x "$stand/bin/rattle" "$stand/toolchain/bin/clang"
rm -f "$folder/module.bc"
(cd "$folder/crates/$crate" && "$stand/bin/rt" try $tests --steps 1 --seconds 1 > "$folder/try.log" 2>&1 < /dev/null) || true
if [ ! -f "$folder/module.bc" ]; then
  cat "$folder/try.log" >&2
  exit 1
fi
clang="$kit/toolchain/bin/clang --target=x86_64-unknown-linux-gnu --sysroot=$kit/toolchain --no-default-config -x ir"
$clang -S -emit-llvm -O0 -Xclang -disable-llvm-passes "$folder/module.bc" -o "$folder/module.ll"
rm "$folder/module.bc"
python3 "$tools/unproved.py" "$kit" "$folder/crates" "$folder/module.ll" "$folder/plain.ll" $kind
# The flags with which the kit compiles a proved program. Where nothing is inlined, functions of one text stay apart.
level="-O3 -Xclang -fmerge-functions -mllvm -mergefunc-use-aliases"
if [ "${UNPROVED_INLINE:-}" = no ]; then level=-O1; fi
if [ -n "$kind" ]; then level=-O0; fi
$clang -c $level -fPIE -march=x86-64 -ffunction-sections -fdata-sections \
  -mllvm -no-trap-after-noreturn -mllvm -trap-unreachable -mllvm -no-x86-call-frame-opt -mllvm -disable-machine-licm \
  -mllvm -disable-postra-machine-licm -mllvm -sink-common-insts=false "$folder/plain.ll" -o "$folder/program.o"
"$kit/bin/rattle-link" --target x86_64-unknown-linux-gnu --toolchain "$kit/toolchain" -o "$folder/program" "$folder/program.o" \
  "$kit/c/libos_c.a" "$kit/c/liblibc_c.a" > "$folder/link.log"
