# What the commands seldump and selmake do alike: a shell script that each of them reads with its own name, usage and statuses. The file is opened,
# the program is proved and built where the toolchain is there and that has not been done since the last change, and then run.
# In: name, usage, version; statuses, a pattern of the digits that the program may tell.

# No byte of a file's name that is not printable reaches the terminal.
say() { printf "$name: %s\n" "$1" | LC_ALL=C tr -c '[:print:]\n' '?' >&2; }
stop() { say "$2"; exit "$1"; }

case ${1-} in
-h | --help) echo "$usage"; exit 0 ;;
-V | --version) echo "$version"; exit 0 ;;
--) shift ;;
-?*) stop 2 "unknown option $1; $name --help tells more" ;;
esac
[ $# -le 1 ] || stop 2 "one file at most; $name --help tells more"
file=${1--}
if [ "$file" != - ]; then
    [ -e "$file" ] || stop 1 "there is no file $file"
    [ ! -d "$file" ] || stop 1 "$file is a directory"
    [ -r "$file" ] || stop 1 "$file may not be read"
    exec <"$file"
fi
(exec 5<&0) 2>/dev/null || stop 1 'standard input is closed'
(exec 5>&1) 2>/dev/null || stop 1 'standard output is closed'
CDPATH= cd -- "$(dirname -- "$(readlink -f -- "$0")")" || exit 1

# target/$name.built says which toolchain built the program, and is as old as what was built. What takes long is told. rt builds a program
# where it runs it, here once, on an empty input, and leaves it in its crate's out/, which an rt ci empties for a while: the copy stays.
program=target/bin/$name
built=target/$name.built
changed() { find crates.txt crates/*/src crates/*/specs crates/*/proofs -newer $built | head -n 1; }
up_to_date() { [ -x $program ] && [ "$(cat $built 2>/dev/null)" = "$(rt version </dev/null)" ] && [ -z "$(changed)" ]; }
build() {
    mkdir -p target/bin && rt version >$built.new </dev/null || stop 1 'target/ cannot be written'
    (sleep 5 >/dev/null 2>&1 && say 'proving and building, which takes some minutes the first time') >/dev/null </dev/null &
    (cd crates/$name && rt run) >target/$name.log 2>&1 </dev/null
    checked=$?
    kill $! 2>/dev/null
    [ $checked = 0 ] || stop 1 "it is not proved, or another rt is at work here; target/$name.log says which"
    cp crates/$name/out/$name $program.new && mv $program.new $program && mv $built.new $built || stop 1 'target/ cannot be written'
}
if command -v rt >/dev/null; then
    up_to_date || build
else
    [ -x $program ] || stop 1 'it is not built; to prove and build it, install the Rattle toolchain (rt on PATH)'
fi

# The program writes to standard output itself. With an argument it also tells a status, on descriptor 3.
exec 4>&1
status=$(exec $program status 3>&1 >&4 4>&-)
ended=$?
case $status in
$statuses) exit "$status" ;;
esac
[ $ended = 141 ] || say "the program broke off, with status $ended"  # 141: nobody reads on
exit 1
